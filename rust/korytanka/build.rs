//! Links the proved library, target/staticlib/libexport.a of the repository's root. The kit's `rt` makes it; cargo does not.

use std::path::Path;
use std::process::exit;

fn main() {
    let folder = Path::new(env!("CARGO_MANIFEST_DIR")).join("../../target/staticlib");
    let library = folder.join("libexport.a");
    println!("cargo:rerun-if-changed={}", library.display());
    if !library.exists() {
        eprintln!("missing: target/staticlib/libexport.a, the proved library");
        eprintln!("run `tools/build library` in the repository's root, then cargo again");
        exit(1);
    }
    println!("cargo:rustc-link-search=native={}", folder.display());
    println!("cargo:rustc-link-lib=static=export");
}
