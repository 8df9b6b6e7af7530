//! With the feature `linked`: links target/staticlib/libcabi.a of this repository, which `scripts/library` makes.

fn main() {
    println!("cargo:rerun-if-changed=build.rs");
    if std::env::var_os("CARGO_FEATURE_LINKED").is_none() {
        return;
    }
    let here = std::env::var("CARGO_MANIFEST_DIR").expect("cargo names the folder");
    let folder = std::path::Path::new(&here).join("../target/staticlib");
    println!("cargo:rustc-link-search=native={}", folder.display());
    println!("cargo:rustc-link-lib=static=cabi");
    println!("cargo:rerun-if-changed={}", folder.join("libcabi.a").display());
}
