//! The calls of `include/wolfaren.h` over the Rust package. `scripts/rust` makes calls.rs of their types in the proved
//! source: each pointer and length becomes a slice. No call allocates memory.
#![deny(improper_ctypes_definitions, unsafe_op_in_unsafe_fn)]

mod calls;
mod parts;
