//! Copies the four Rust files of docs/src into a build folder and applies the oracle's patches to the copy.

pub mod patch;

use std::collections::BTreeMap;
use std::env;
use std::fs;
use std::path::{Path, PathBuf};

/// The four files, as modules in the order of their dependence.
pub const MODULES: [&str; 4] = ["roots", "profile", "block", "position_third_step1"];

/// The whole work of a choice's build script.
pub fn prepare() {
    let oracle = oracle_folder();
    let sources = oracle.join("../docs/src/lib/src/rsruckig");
    let patches = oracle.join("patches");
    let out = PathBuf::from(env::var("OUT_DIR").expect("cargo sets OUT_DIR"));
    for folder in [&sources, &patches] {
        println!("cargo:rerun-if-changed={}", folder.display());
    }
    // The Rust asks for its feature `std`; it is never on here.
    println!("cargo:rustc-check-cfg=cfg(feature, values(\"std\"))");
    let texts = patched(&sources, &patches).unwrap_or_else(|message| panic!("{message}"));
    for (name, text) in &texts {
        write(&out.join(name), text);
    }
    write(
        &out.join("step1.rs"),
        &module_list(&out, &oracle.join("step1")),
    );
}

/// The folder that this crate lies in.
pub fn oracle_folder() -> PathBuf {
    let here = Path::new(env!("CARGO_MANIFEST_DIR"));
    here.parent()
        .expect("this crate lies in the oracle's folder")
        .to_path_buf()
}

/// The four files by name, with every patch applied in the order of the patches' names.
pub fn patched(sources: &Path, patches: &Path) -> Result<BTreeMap<String, String>, String> {
    let mut texts = BTreeMap::new();
    for module in MODULES {
        let name = format!("{module}.rs");
        let text = read(&sources.join(&name))?;
        texts.insert(name, text);
    }
    for path in patch_files(patches)? {
        apply_to_all(&path, &mut texts)?;
    }
    Ok(texts)
}

fn patch_files(folder: &Path) -> Result<Vec<PathBuf>, String> {
    let entries = fs::read_dir(folder).map_err(|error| format!("{}: {error}", folder.display()))?;
    let mut paths: Vec<PathBuf> = entries
        .filter_map(|entry| Some(entry.ok()?.path()))
        .filter(|path| {
            path.extension()
                .is_some_and(|extension| extension == "patch")
        })
        .collect();
    paths.sort();
    Ok(paths)
}

fn apply_to_all(path: &Path, texts: &mut BTreeMap<String, String>) -> Result<(), String> {
    let named = |problem: &dyn std::fmt::Display| format!("patch {}: {problem}", path.display());
    for file_patch in patch::parse(&read(path)?).map_err(|mismatch| named(&mismatch))? {
        let text = texts
            .get_mut(&file_patch.file)
            .ok_or_else(|| named(&format!("{} isn't one of the four files", file_patch.file)))?;
        *text = patch::apply(&file_patch, text).map_err(|mismatch| named(&mismatch))?;
    }
    Ok(())
}

/// The modules of a choice: the four patched files, whose style is not ours to judge, the supplied parts, and the
/// answers made of them.
fn module_list(out: &Path, step1: &Path) -> String {
    let own = ["array_vec", "brake", "float", "util", "choice"];
    let from = |folder: &Path, name: &str| {
        let path = folder.join(format!("{name}.rs"));
        format!("#[path = {path:?}]\npub mod {name};\n")
    };
    let four = MODULES.map(|name| format!("#[allow(clippy::all)]\n{}", from(out, name)));
    let supplied = own.map(|name| from(step1, name));
    four.concat() + &supplied.concat()
}

fn read(path: &Path) -> Result<String, String> {
    fs::read_to_string(path).map_err(|error| format!("{}: {error}", path.display()))
}

fn write(path: &Path, text: &str) {
    fs::write(path, text).unwrap_or_else(|error| panic!("{}: {error}", path.display()));
}
