//! Links the static library `ipexts_calls` and the allocator that it needs.
use std::path::Path;
use std::process::Command;

fn main() {
    let library = Path::new("../../crates/ipexts_calls/out")
        .canonicalize()
        .expect("the static library is missing: `rt lib` in crates/ipexts_calls builds it");
    let output = Command::new("rt")
        .arg("doc")
        .output()
        .expect("`rt` is on the PATH");
    let page = String::from_utf8(output.stdout).expect("`rt doc` prints a path");
    let kit = Path::new(page.trim())
        .parent()
        .expect("`rt doc` prints a file's path");
    println!(
        "cargo:rerun-if-changed={}",
        library.join("libipexts_calls.a").display()
    );
    println!("cargo:rustc-link-search=native={}", library.display());
    println!("cargo:rustc-link-search=native={}", kit.join("c").display());
    println!("cargo:rustc-link-lib=static=ipexts_calls");
    println!("cargo:rustc-link-lib=static=libc_c");
}
