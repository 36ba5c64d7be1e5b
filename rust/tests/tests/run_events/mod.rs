//! Tests of the layer through its public calls: runs, attempts, views, what is shown, long errors and
//! orders. Each kind of event is made and read back.

mod attempts;
mod chain;
mod events;
mod orders;
mod runs;
mod views;
mod visibility;
