//! Says where the proved library lies, to the program that links it.

fn main() {
    println!("cargo::rerun-if-changed=build.rs");
    if std::env::var_os("CARGO_FEATURE_LIBRARY").is_some() {
        let folder = concat!(env!("CARGO_MANIFEST_DIR"), "/../target/staticlib");
        println!("cargo::rustc-link-search=native={folder}");
        println!("cargo::rerun-if-changed={folder}/libfunding.a");
    }
}
