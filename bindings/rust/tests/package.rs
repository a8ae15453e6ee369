//! The crate as a package: its version, and that nothing of the standard library is in it.

mod common;

use common::{files, in_repository, text};

#[test]
fn the_version_is_the_package_s() {
    assert_eq!(genduvo::VERSION, env!("CARGO_PKG_VERSION"));
}

/// The lines of a source that are no comments.
fn code(source: &str) -> impl Iterator<Item = &str> {
    source.lines().filter(|line| !line.trim_start().starts_with("//"))
}

#[test]
fn no_source_uses_the_standard_library() {
    let folders = ["bindings/rust/src", "bindings/rust/src/report", "bindings/rust/src/description"];
    let sources = folders.map(|folder| files(folder, "rs")).concat();
    assert!(sources.len() >= 14, "{sources:?}");
    for path in &sources {
        let source = text(path);
        let of_std = |line: &&str| line.contains("std::") || line.contains("extern crate std");
        assert_eq!(code(&source).find(of_std), None, "{}", path.display());
        // Memory is asked for by the module `description` alone.
        let asks = code(&source).any(|line| line.contains("alloc::") || line.contains("extern crate alloc"));
        let may = path.components().any(|part| part.as_os_str() == "description");
        assert!(may || !asks, "{}", path.display());
    }
    assert!(text(&in_repository("bindings/rust/src/lib.rs")).contains("#![no_std]"));
}
