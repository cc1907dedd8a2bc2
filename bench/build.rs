//! Links the walk in C and, without the feature `package`, the static library `ipexts_calls`, the allocator that it needs, and a
//! block of `SHIFT` bytes before the library, which moves its code.
use std::env;
use std::path::{Path, PathBuf};
use std::process::Command;

fn main() {
    println!("cargo:rerun-if-env-changed=SHIFT");
    println!("cargo:rerun-if-env-changed=CC");
    println!("cargo:rerun-if-changed=src/walk.c");
    let out = PathBuf::from(env::var("OUT_DIR").expect("Cargo sets OUT_DIR"));
    println!("cargo:rustc-link-search=native={}", out.display());
    let is_package = env::var_os("CARGO_FEATURE_PACKAGE").is_some();
    if !is_package {
        link_ours(&out);
    }
    let folder = Path::new(if is_package { "../src" } else { "src" });
    compile(&out, &folder.join("walk.c"), "walk");
    println!("cargo:rustc-link-lib=static=walk");
}

/// Links the measured calls of the proved crates, and the block before them.
fn link_ours(out: &Path) {
    link_library("ipexts_calls");
    compile_shift(out);
    println!(
        "cargo:rustc-link-search=native={}",
        kit().join("c").display()
    );
    for name in ["shift", "ipexts_calls", "libc_c"] {
        println!("cargo:rustc-link-lib=static={name}");
    }
}

/// Links the static library of a crate.
fn link_library(name: &str) {
    let folder = Path::new("../crates")
        .join(name)
        .join("out")
        .canonicalize()
        .unwrap_or_else(|_| {
            panic!("the static library is missing: `rt lib` in crates/{name} builds it")
        });
    let archive = folder.join(format!("lib{name}.a"));
    println!("cargo:rerun-if-changed={}", archive.display());
    println!("cargo:rustc-link-search=native={}", folder.display());
}

/// Generates a function followed by `SHIFT` bytes, and compiles it.
fn compile_shift(out: &Path) {
    let shift: usize =
        env::var("SHIFT").map_or(0, |shift| shift.parse().expect("SHIFT is a number"));
    let source = format!(
        ".section .text.ipexts_shift,\"ax\",@progbits\n.p2align 6\n.globl ipexts_shift\n\
         .type ipexts_shift,@function\nipexts_shift:\nret\n.skip {}\n.section .note.GNU-stack,\"\",@progbits\n",
        63 + shift
    );
    let file = out.join("shift.s");
    std::fs::write(&file, source).expect("OUT_DIR can be written");
    compile(out, &file, "shift");
}

/// Compiles one file to a static library with the given name.
fn compile(out: &Path, source: &Path, name: &str) {
    let compiler = env::var("CC").unwrap_or_else(|_| "cc".to_owned());
    let object = out.join(format!("{name}.o"));
    let archive = out.join(format!("lib{name}.a"));
    run(Command::new(compiler)
        .args(["-O3", "-march=x86-64-v2", "-c"])
        .arg(source)
        .arg("-o")
        .arg(&object));
    run(Command::new("ar").arg("crs").arg(&archive).arg(&object));
}

/// Returns the directory of the Rattle toolchain.
fn kit() -> PathBuf {
    let output = Command::new("rt")
        .arg("doc")
        .output()
        .expect("`rt` is on the PATH");
    let page = String::from_utf8(output.stdout).expect("`rt doc` prints a path");
    Path::new(page.trim())
        .parent()
        .expect("`rt doc` prints a file's path")
        .to_owned()
}

fn run(command: &mut Command) {
    let status = command
        .status()
        .unwrap_or_else(|e| panic!("{command:?}: {e}"));
    assert!(status.success(), "{command:?} failed");
}
