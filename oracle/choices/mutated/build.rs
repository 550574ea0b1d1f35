//! docs/src with the oracle's patches, and every mutant.

fn main() {
    patched_source::prepare();
    mutation::write_into_build_folder();
}
