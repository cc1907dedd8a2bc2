//! Compiles a program that is also compiled for etherparse, with only the name of the crate changed.
#![cfg(feature = "std")]
use wolfaren as parser;

// Some of its functions are only compiled, and its types are written out.
#[allow(dead_code, clippy::type_complexity)]
#[path = "etherparse/names.rs"]
mod names;

#[test]
fn names_have_the_types_of_etherparse() {
    names::packets();
    names::headers_and_errors();
    names::owned();
    names::owned_chains();
    names::traits();
    const { assert!(names::OFFSET && names::FRAGMENT.more_fragments) };
    assert_eq!(names::name(parser::ip_number::HIP), "other");
}
