//! Compiles the walk in C, and a block of `SHIFT` bytes that precedes the library and moves its code, and links the library of
//! `WOLFAREN_LIB_DIR`.
use std::env;
use std::path::{Path, PathBuf};
use std::process::Command;

fn main() {
    println!("cargo:rerun-if-env-changed=SHIFT");
    println!("cargo:rerun-if-env-changed=CC");
    println!("cargo:rerun-if-env-changed=WOLFAREN_LIB_DIR");
    println!("cargo:rerun-if-changed=src/walk.c");
    let out = PathBuf::from(env::var("OUT_DIR").expect("Cargo sets OUT_DIR"));
    let shift: usize =
        env::var("SHIFT").map_or(0, |shift| shift.parse().expect("SHIFT is a number"));
    let source = format!(
        ".section .text.wolfaren_shift,\"ax\",@progbits\n.p2align 6\n.globl wolfaren_shift\n\
         .type wolfaren_shift,@function\nwolfaren_shift:\nret\n.skip {}\n.section .note.GNU-stack,\"\",@progbits\n",
        63 + shift
    );
    let file = out.join("shift.s");
    std::fs::write(&file, source).expect("OUT_DIR can be written");
    compile(&out, &file, "shift");
    compile(&out, Path::new("src/walk.c"), "walk");
    println!("cargo:rustc-link-search=native={}", out.display());
    let library = env::var("WOLFAREN_LIB_DIR").expect("WOLFAREN_LIB_DIR names a directory with libwolfaren.a");
    println!("cargo:rerun-if-changed={library}/libwolfaren.a");
    println!("cargo:rustc-link-search=native={library}");
    for name in ["shift", "wolfaren", "walk"] {
        println!("cargo:rustc-link-lib=static={name}");
    }
    if env::var_os("CARGO_FEATURE_LIBPCAP").is_some() {
        println!("cargo:rustc-link-lib=pcap");
    }
}

/// Compiles one file to a static library with the given name.
fn compile(out: &Path, source: &Path, name: &str) {
    let compiler = env::var("CC").unwrap_or_else(|_| "cc".to_owned());
    let object = out.join(format!("{name}.o"));
    run(Command::new(compiler)
        .args(["-O3", "-march=x86-64-v2", "-c"])
        .arg(source)
        .arg("-o")
        .arg(&object));
    run(Command::new("ar")
        .arg("crs")
        .arg(out.join(format!("lib{name}.a")))
        .arg(&object));
}

fn run(command: &mut Command) {
    let status = command
        .status()
        .unwrap_or_else(|e| panic!("{command:?}: {e}"));
    assert!(status.success(), "{command:?} failed");
}
