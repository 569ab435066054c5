//! That the package's copy of the header is the header.
use std::fs;
use std::path::Path;

#[test]
fn the_header_is_the_repositorys() {
    let package = Path::new(env!("CARGO_MANIFEST_DIR"));
    let copy = fs::read_to_string(package.join("fenhamper.h")).unwrap();
    // outside the repository there is only the copy
    if let Ok(header) = fs::read_to_string(package.join("../../include/fenhamper.h")) {
        assert!(
            copy == header,
            "in the repository: cp include/fenhamper.h bindings/rust/fenhamper.h"
        );
    }
}
