//! What the pages name is there: files, and the must-fail edits, each of which docs/PROMISES.md has.

use std::fs;
use std::path::{Path, PathBuf};

fn root() -> PathBuf {
    Path::new(env!("CARGO_MANIFEST_DIR")).join("../..")
}

fn entries(folder: &Path) -> Vec<PathBuf> {
    let listed = fs::read_dir(folder).unwrap_or_else(|why| panic!("{}: {why}", folder.display()));
    listed
        .map(|entry| entry.expect("an entry can be read").path())
        .collect()
}

fn text(file: &Path) -> String {
    fs::read_to_string(file).unwrap_or_else(|why| panic!("{}: {why}", file.display()))
}

#[test]
fn every_file_that_a_page_names_is_there() {
    let mut pages = entries(&root().join("docs"));
    pages.extend([root().join("README.md"), root().join("rust/README.md")]);
    let mut named = 0;
    for page in pages
        .iter()
        .filter(|page| page.extension().is_some_and(|end| end == "md"))
    {
        for found in text(page).split("crates/").skip(1) {
            let end = found.find(|c: char| !(c.is_ascii_alphanumeric() || "_/-.".contains(c)));
            let path = found[..end.unwrap_or(found.len())].trim_end_matches(['.', '/']);
            assert!(
                root().join("crates").join(path).exists(),
                "{} names crates/{path}",
                page.display()
            );
            named += 1;
        }
    }
    assert!(named > 50, "the pages name files: {named} were found");
}

#[test]
fn every_must_fail_edit_is_in_promises() {
    let promises = text(&root().join("docs/PROMISES.md"));
    let folders = entries(&root().join("crates"))
        .into_iter()
        .flat_map(|crate_| ["must-fail", "must-fail-slow"].map(|name| crate_.join(name)));
    let mut edits = 0;
    for edit in folders
        .filter(|folder| folder.is_dir())
        .flat_map(|folder| entries(&folder))
    {
        let name = edit
            .file_stem()
            .expect("an edit has a name")
            .to_string_lossy()
            .into_owned();
        assert!(
            promises.contains(&format!("`{name}`")),
            "docs/PROMISES.md does not name {}",
            edit.display()
        );
        edits += 1;
    }
    assert!(edits > 50, "there are must-fail edits: {edits} were found");
}
