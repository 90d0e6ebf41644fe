//! Links the static library of the proved code.

use std::env;
use std::path::PathBuf;

/// The file that `tools/build-library` builds.
const LIBRARY: &str = "libclearance.a";

/// Where the library is: `CLEARANCE_LIB_DIR`, or the repository's own folder.
fn folder() -> PathBuf {
    match env::var_os("CLEARANCE_LIB_DIR") {
        Some(folder) => folder.into(),
        None => PathBuf::from(env!("CARGO_MANIFEST_DIR")).join("../../build/prefix/lib"),
    }
}

fn main() {
    let folder = folder();
    let library = folder.join(LIBRARY);
    println!("cargo::rerun-if-env-changed=CLEARANCE_LIB_DIR");
    println!("cargo::rerun-if-changed={}", library.display());
    if !library.is_file() {
        println!(
            "cargo::error=there is no {}: run `tools/build-library` at the top of the repository",
            library.display()
        );
        return;
    }
    println!("cargo::rustc-link-search=native={}", folder.display());
    println!("cargo::rustc-link-lib=static=clearance");
}
