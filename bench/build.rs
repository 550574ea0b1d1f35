// Links the archive that `rt lib` in crates/girnhusk writes.
fn main() {
    let folder = concat!(env!("CARGO_MANIFEST_DIR"), "/../crates/girnhusk/out");
    println!("cargo:rerun-if-changed={folder}/libgirnhusk.a");
    println!("cargo:rustc-link-search=native={folder}");
    println!("cargo:rustc-link-lib=static=girnhusk");
    if !std::path::Path::new(folder).join("libgirnhusk.a").exists() {
        println!("cargo:warning=the archive is missing: run `rt lib` in crates/girnhusk first");
    }
}
