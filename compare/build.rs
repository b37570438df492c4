//! Where the program finds the archive of the proved calls, as `rt lib` in crates/pica writes it.

fn main() {
    let folder = format!("{}/../crates/pica/out", env!("CARGO_MANIFEST_DIR"));
    println!("cargo:rustc-link-search=native={folder}");
    println!("cargo:rerun-if-changed={folder}/libpica.a");
}
