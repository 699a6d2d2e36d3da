// Links the static library that `tools/build library` leaves at the repository's top.
fn main() {
    let folder = concat!(env!("CARGO_MANIFEST_DIR"), "/../../target/staticlib");
    println!("cargo:rustc-link-search=native={folder}");
    println!("cargo:rustc-link-lib=static=dofnihet");
    println!("cargo:rerun-if-changed={folder}/libdofnihet.a");
}
