"""Turns the Rattle sources in crates/ into plain Rust in rust/."""
