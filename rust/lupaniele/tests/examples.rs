//! Each example prints what stands beside it in its `.stdout`, and docs/RUST.md shows the files that it names as they
//! are.

use std::fs;
use std::path::{Path, PathBuf};
use std::process::Command;

/// The folder of this crate.
fn home() -> &'static Path {
    Path::new(env!("CARGO_MANIFEST_DIR"))
}

/// An example as cargo built it for this test: beside the folder of the test.
fn built(name: &str) -> PathBuf {
    let mut folder = std::env::current_exe().expect("the test has a path");
    folder.pop();
    folder.pop();
    folder.join("examples").join(name)
}

#[test]
fn examples_print_what_they_must() {
    let mut count = 0;
    for file in fs::read_dir(home().join("examples")).expect("there are examples") {
        let path = file.expect("a file").path();
        if path.extension().is_none_or(|extension| extension != "rs") {
            continue;
        }
        let name = path
            .file_stem()
            .and_then(|name| name.to_str())
            .expect("a name");
        let run = Command::new(built(name))
            .output()
            .expect("cargo built the example");
        let printed = fs::read_to_string(path.with_extension("stdout")).expect("what it prints");
        assert_eq!(String::from_utf8_lossy(&run.stdout), printed, "{name}");
        assert!(run.status.success(), "{name}");
        count += 1;
    }
    assert!(count >= 5);
}

#[test]
fn the_page_shows_the_files_as_they_are() {
    let top = home().join("../..");
    let page = fs::read_to_string(top.join("docs/RUST.md")).expect("the page");
    let mut count = 0;
    for block in page.split("\n```").skip(1).step_by(2) {
        let (head, shown) = block.split_once('\n').expect("a block has lines");
        let Some((_, file)) = head.split_once(' ') else {
            continue;
        };
        let text = fs::read_to_string(top.join(file)).expect("a file that is shown");
        assert_eq!(format!("{shown}\n"), text, "{file}");
        count += 1;
    }
    assert!(count >= 2);
}
