// Links the archive that `rt lib` in crates/girnhusk writes, from GIRNHUSK_ARCHIVE_DIR or from crates/girnhusk/out of the
// repository.
use std::env;
use std::path::{Path, PathBuf};

fn main() {
    println!("cargo:rerun-if-env-changed=GIRNHUSK_ARCHIVE_DIR");
    let folder = match env::var_os("GIRNHUSK_ARCHIVE_DIR") {
        Some(folder) => PathBuf::from(folder),
        None => Path::new(&env::var_os("CARGO_MANIFEST_DIR").expect("cargo sets it"))
            .join("../../crates/girnhusk/out"),
    };
    let archive = folder.join("libgirnhusk.a");
    println!("cargo:rerun-if-changed={}", archive.display());
    if !archive.is_file() {
        eprintln!("girnhusk: there is no archive at {}.", archive.display());
        eprintln!("Run `rt lib` in crates/girnhusk of the repository, or set GIRNHUSK_ARCHIVE_DIR to the folder that holds libgirnhusk.a.");
        std::process::exit(1);
    }
    println!("cargo:rustc-link-search=native={}", folder.display());
    println!("cargo:rustc-link-lib=static=girnhusk");
}
