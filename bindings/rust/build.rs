//! Where the static library is: `DRUM_LIB_DIR`, or where `bindings/library` puts it.
fn main() {
    let here = env!("CARGO_MANIFEST_DIR");
    let dir = std::env::var("DRUM_LIB_DIR").unwrap_or(format!("{here}/../../target/staticlib"));
    println!("cargo:rustc-link-search=native={dir}");
    println!("cargo:rerun-if-env-changed=DRUM_LIB_DIR");
}
