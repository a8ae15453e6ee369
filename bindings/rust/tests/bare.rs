//! A program without the standard library can use the crate: were any of it linked, it would have a second panic
//! handler, which rustc refuses.

use std::path::{Path, PathBuf};
use std::process::Command;

fn source(path: &str) -> PathBuf {
    Path::new(env!("CARGO_MANIFEST_DIR")).join(path)
}

/// Compiles with the features into the folder.
fn compile(folder: &Path, features: &[&str], arguments: &[&str], path: &str) {
    let rustc = std::env::var("RUSTC").unwrap_or_else(|_| "rustc".into());
    let mut command = Command::new(rustc);
    command.args(["--edition", "2024", "-C", "panic=abort", "-L"]).arg(folder).arg("--out-dir").arg(folder);
    command.args(features.iter().map(|feature| format!("--cfg=feature=\"{feature}\"")));
    let output = command.args(arguments).arg(source(path)).output().expect("rustc");
    assert!(output.status.success(), "{}", String::from_utf8_lossy(&output.stderr));
}

/// Compiles the crate, the library left out, and the program that uses it.
fn compile_both(name: &str, features: &[&str]) {
    let folder = Path::new(env!("CARGO_TARGET_TMPDIR")).join(name);
    std::fs::create_dir_all(&folder).expect("a folder");
    // An archive that is never linked to the end stands in for the library.
    std::fs::write(folder.join("libfacts_c.a"), b"!<arch>\n").expect("an archive");
    compile(&folder, features, &["--crate-type", "rlib", "--crate-name", "genduvo"], "src/lib.rs");
    let program = ["--crate-type", "staticlib", "--crate-name", "bare", "--extern", "genduvo"];
    compile(&folder, features, &program, "tests/bare/lib.rs");
    assert!(folder.join("libbare.a").is_file());
}

#[test]
fn without_the_standard_library() {
    compile_both("bare", &[]);
}

#[test]
fn without_the_standard_library_but_with_memory() {
    compile_both("bare-alloc", &["alloc"]);
}
