//! Links the static libraries of the crates `strips` and `testing`: in STATICLIB_DIR, or where `tools/build` writes them.
use std::env;
use std::path::PathBuf;

fn main() {
    let folder = match env::var_os("STATICLIB_DIR") {
        Some(folder) => PathBuf::from(folder),
        None => PathBuf::from(env::var_os("CARGO_MANIFEST_DIR").unwrap()).join("../target/staticlib"),
    };
    println!("cargo:rerun-if-env-changed=STATICLIB_DIR");
    println!("cargo:rustc-link-search=native={}", folder.display());
    for name in ["strips", "testing"] {
        let archive = folder.join(format!("lib{name}.a"));
        assert!(archive.is_file(), "no {}: run `tools/build {name}` first", archive.display());
        println!("cargo:rerun-if-changed={}", archive.display());
        println!("cargo:rustc-link-lib=static={name}");
    }
}
