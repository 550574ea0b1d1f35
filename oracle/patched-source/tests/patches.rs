//! The patch applier: what fits is applied, what doesn't is refused with file and hunk.

use patched_source::patch::{apply, parse};
use std::path::Path;

const TEXT: &str = "one\ntwo\nthree\nfour\nfive\nsix\n";

const PATCH: &str = "Why this is there.

--- a/numbers.rs
+++ b/numbers.rs
@@ -1,3 +1,3 @@
 one
-two
+2
 three
@@ -5,2 +5,3 @@
 five
+five and a half
 six
";

fn applied(patch: &str, text: &str) -> Result<String, String> {
    let files = parse(patch).map_err(|mismatch| mismatch.to_string())?;
    assert_eq!(files[0].file, "numbers.rs");
    apply(&files[0], text).map_err(|mismatch| mismatch.to_string())
}

#[test]
fn a_fitting_patch_is_applied() {
    let patched = applied(PATCH, TEXT);
    assert_eq!(
        patched.unwrap(),
        "one\n2\nthree\nfour\nfive\nfive and a half\nsix\n"
    );
}

#[test]
fn a_patch_that_only_adds_is_applied() {
    let patch = "Why.\n--- a/numbers.rs\n+++ b/numbers.rs\n@@ -2,0 +3 @@\n+two and a half\n";
    let patched = applied(patch, TEXT).unwrap();
    assert_eq!(
        patched,
        "one\ntwo\ntwo and a half\nthree\nfour\nfive\nsix\n"
    );
}

#[test]
fn other_context_is_refused_with_file_and_hunk() {
    let message = applied(PATCH, &TEXT.replace("six", "seven")).unwrap_err();
    assert_eq!(
        message,
        "file numbers.rs, hunk 2: line 6 is `seven`, not `six`"
    );
}

#[test]
fn context_at_another_line_is_refused() {
    let message = applied(PATCH, &format!("zero\n{TEXT}")).unwrap_err();
    assert_eq!(
        message,
        "file numbers.rs, hunk 1: line 1 is `zero`, not `one`"
    );
}

#[test]
fn a_shorter_file_is_refused() {
    let message = applied(PATCH, "one\ntwo\nthree\nfour\nfive\n").unwrap_err();
    assert!(
        message.starts_with("file numbers.rs, hunk 2: it lies outside"),
        "{message}"
    );
}

#[test]
fn a_patch_must_say_why() {
    let bare = PATCH.strip_prefix("Why this is there.\n\n").unwrap();
    assert!(applied(bare, TEXT).unwrap_err().contains("says why"));
}

#[test]
fn counts_must_fit() {
    let message = applied(&PATCH.replace("@@ -1,3 +1,3 @@", "@@ -1,3 +1,4 @@"), TEXT).unwrap_err();
    assert!(message.starts_with("file numbers.rs, hunk 1:"), "{message}");
}

#[test]
fn the_stored_patches_fit_the_four_files() {
    let oracle = Path::new(env!("CARGO_MANIFEST_DIR")).parent().unwrap();
    let sources = oracle.join("../docs/src/lib/src/rsruckig");
    let texts = patched_source::patched(&sources, &oracle.join("patches")).unwrap();
    assert_eq!(texts.len(), 4);
}
