// Takes the original's two files byte for byte from the folder with the given files, and puts our one item after circuitdag.rs, which ends in a
// documentation comment that needs one. Nothing of the original is kept in the repository.
use std::{env, fs, path::Path};

fn main() {
    let root = env::var("CARGO_MANIFEST_DIR").expect("cargo sets it");
    let folder = env::var("SAWHEKONU_ORIGINAL").expect("set SAWHEKONU_ORIGINAL to the folder with the files of the original");
    let out = env::var("OUT_DIR").expect("cargo sets it");
    let after = format!("{root}/src/after.rs");
    for (name, appended) in [("circuitdag", Some(&after)), ("circuit", None)] {
        let path = format!("{folder}/roqoqo--src--{name}.rs.txt");
        let mut text = fs::read(&path).unwrap_or_else(|e| panic!("{path}: {e}"));
        if let Some(file) = appended {
            text.extend(fs::read(file).expect("our item"));
        }
        fs::write(Path::new(&out).join(format!("{name}.rs")), text).expect("OUT_DIR is writable");
        println!("cargo:rerun-if-changed={path}");
    }
    println!("cargo:rerun-if-changed={after}");
    println!("cargo:rerun-if-env-changed=SAWHEKONU_ORIGINAL");
}
