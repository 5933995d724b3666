//! Finds the proved library: libexports.a in the folder EXPORTS, or where host/library writes it.
use std::env;
use std::path::Path;

fn main() {
    let here = env::var("CARGO_MANIFEST_DIR").unwrap();
    let folder = env::var("EXPORTS").unwrap_or(format!("{here}/../../target/staticlib"));
    let library = Path::new(&folder).join("libexports.a");
    println!("cargo:rerun-if-env-changed=EXPORTS");
    println!("cargo:rerun-if-changed={}", library.display());
    println!("cargo:rustc-link-search=native={folder}");
    if !Path::new(&folder).is_absolute() || !library.is_file() {
        let how = "make it by host/library, or set EXPORTS to the absolute path of its folder";
        println!("cargo::error=no libexports.a in {folder}: {how}");
    }
}
