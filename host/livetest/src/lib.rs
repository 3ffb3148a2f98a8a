//! Tests of the compiled library: against the second emulator, on arbitrary input, batches against single cycles.

pub mod arbitrary;
pub mod batches;
pub mod compare;
pub mod traffic;
pub mod twin;
