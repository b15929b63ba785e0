//! Links the desk's library, which `make lib` leaves in dist/.

use std::path::Path;

fn main() {
    let dist = Path::new(env!("CARGO_MANIFEST_DIR")).join("../../dist");
    let library = dist.join("libbemulatsho.a");
    if !library.exists() {
        panic!("{} is missing: run `make lib` first", library.display());
    }
    println!("cargo:rerun-if-changed={}", library.display());
    println!("cargo:rustc-link-search=native={}", dist.display());
    println!("cargo:rustc-link-lib=static=bemulatsho");
}
