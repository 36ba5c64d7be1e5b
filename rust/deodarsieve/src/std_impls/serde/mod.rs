//! `Serialize` and `Deserialize` of the types for which derived ones cannot read and write what
//! nextest's types do.

mod attempts;
mod errors;
mod moment;
mod test_group;

use crate::run_events_attempts::child::OutputSpec;
use ::serde::{Serialize, de::DeserializeOwned};

/// An [`OutputSpec`] whose description of output can be serialized and deserialized. Every such
/// type has this trait.
///
/// With it, records such as [`ExecutionStatuses`] can be serialized and deserialized. [`LiveSpec`]
/// does not have it: captured output is not serialized.
///
/// [`ExecutionStatuses`]: crate::reporter::events::ExecutionStatuses
/// [`LiveSpec`]: crate::output_spec::LiveSpec
pub trait SerializableOutputSpec:
    OutputSpec<ChildOutputDesc: Serialize + DeserializeOwned>
{
}

impl<S> SerializableOutputSpec for S where
    S: OutputSpec<ChildOutputDesc: Serialize + DeserializeOwned>
{
}
