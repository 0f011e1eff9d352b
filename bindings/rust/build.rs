//! Links target/staticlib/libsogvect.a of the repository.
use std::path::Path;
use std::process::exit;

fn main() {
    let here = std::env::var("CARGO_MANIFEST_DIR").expect("cargo names the package's folder");
    let folder = Path::new(&here).join("../../target/staticlib");
    let archive = folder.join("libsogvect.a");
    println!("cargo:rerun-if-changed={}", archive.display());
    println!("cargo:rerun-if-changed=build.rs");
    if std::env::var("CARGO_CFG_TARGET_ARCH").as_deref() != Ok("x86_64") {
        eprintln!("sogvect: libsogvect.a is compiled for x86-64 Linux only");
        exit(1);
    }
    if !archive.is_file() {
        eprintln!("sogvect: target/staticlib/libsogvect.a is not there. In the repository, run: tools/build sogvect");
        exit(1);
    }
    println!("cargo:rustc-link-search=native={}", folder.display());
    println!("cargo:rustc-link-lib=static=sogvect");
}
