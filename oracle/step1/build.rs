//! The build script of every choice: docs/src with the oracle's patches.

fn main() {
    patched_source::prepare();
}
