//! Links the program `checksum` with the library, `target/staticlib/libhost.a`, which `tools/build host_c` writes.

use std::path::Path;

fn main() {
    let library = Path::new(env!("CARGO_MANIFEST_DIR")).join("../target/staticlib/libhost.a");
    println!("cargo::rerun-if-changed={}", library.display());
    println!("cargo::rustc-link-arg-bins={}", library.display());
}
