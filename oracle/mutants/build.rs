//! The refusals, the reading of records and the arrival with their mutants.

use std::env;
use std::fs;
use std::path::PathBuf;

fn main() {
    mutation::write_into_build_folder();
    let out = PathBuf::from(env::var("OUT_DIR").expect("cargo sets OUT_DIR"));
    let modules = ["wrapper", "records", "arrival"].map(|name| {
        let path = out.join(format!("{name}.rs"));
        format!("#[allow(clippy::all, dead_code, unused_parens)]\n#[path = {path:?}]\npub mod {name};\n")
    });
    fs::write(out.join("modules.rs"), modules.concat()).expect("the build folder can be written");
}
