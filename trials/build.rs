//! Links the static library that `make lib` leaves in the repository's target directory.

use std::path::Path;

fn main() {
    let package = std::env::var("CARGO_MANIFEST_DIR").expect("cargo names the package's directory");
    let library = Path::new(&package).join("../target/staticlib");
    println!("cargo:rustc-link-search=native={}", library.display());
    println!("cargo:rustc-link-lib=static=mastpickle");
    println!(
        "cargo:rerun-if-changed={}",
        library.join("libmastpickle.a").display()
    );
}
