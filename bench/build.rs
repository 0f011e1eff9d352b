//! Links `scripts` with the runner's serving, which `tools/build measure` writes.
fn main() {
    let here = std::env::var("CARGO_MANIFEST_DIR").expect("cargo names the package's folder");
    let path = format!("{here}/../target/staticlib/libmeasure.a");
    println!("cargo:rustc-link-arg-bin=scripts={path}");
    println!("cargo:rerun-if-changed={path}");
}
