// Links the static library that `rt lib` makes in crates/host, and the layout of the header's structs.
use std::{env, path::Path, process::Command};

fn main() {
    let root = env::var("CARGO_MANIFEST_DIR").expect("cargo sets it");
    let root = Path::new(&root).parent().expect("compare/ is in the repository");
    let folder = root.join("crates/host/out");
    println!("cargo:rustc-link-search=native={}", folder.display());
    println!("cargo:rustc-link-lib=static=host");
    println!("cargo:rerun-if-changed={}", folder.join("libhost.a").display());

    let include = root.join("include");
    let source = root.join("compare/src/layout.c");
    let object = Path::new(&env::var("OUT_DIR").expect("cargo sets it")).join("layout.o");
    let status = Command::new("cc").args(["-std=c11", "-Wall", "-Wextra", "-Werror", "-c", "-I"]).arg(&include).arg(&source).arg("-o").arg(&object).status();
    assert!(status.expect("cc runs").success(), "layout.c does not compile");
    println!("cargo:rustc-link-arg={}", object.display());
    println!("cargo:rerun-if-changed={}", source.display());
    println!("cargo:rerun-if-changed={}", include.join("sawhekonu.h").display());
}
