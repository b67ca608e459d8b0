//! The build script of each package whose programs call the kernel: links the static library that ARDUINOS_ARCHIVE
//! names.

fn main() {
    println!("cargo:rerun-if-env-changed=ARDUINOS_ARCHIVE");
    let named = std::env::var("ARDUINOS_ARCHIVE").expect("ARDUINOS_ARCHIVE names no libarduinos.a");
    let Ok(archive) = std::path::Path::new(&named).canonicalize() else {
        panic!("no static library at {named}: run scripts/library, or let ARDUINOS_ARCHIVE name libarduinos.a");
    };
    println!("cargo:rerun-if-changed={}", archive.display());
    println!("cargo:rustc-link-arg={}", archive.display());
}
