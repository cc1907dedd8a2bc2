//! Parses packets with the package.
use wolfaren as parser;

#[allow(clippy::duplicate_mod)] // It is compiled for both crates.
#[path = "digest.rs"]
mod digest;

pub use digest::{Filter, Full};
