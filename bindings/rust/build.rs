//! Says where libfacts_c.a stands: in the folder FACTS_LIB, or where `rt lib` in crates/facts_c leaves it.

use std::path::{Path, PathBuf};

const ARCHIVE: &str = "libfacts_c.a";

/// The folder FACTS_LIB, or crates/facts_c/out in the repository.
fn folder() -> PathBuf {
    println!("cargo::rerun-if-env-changed=FACTS_LIB");
    match std::env::var_os("FACTS_LIB") {
        Some(told) => from_the_caller(told.into()),
        None => top().join("crates/facts_c/out"),
    }
}

/// The top of the repository, two folders above this one.
fn top() -> &'static Path {
    let own = Path::new(env!("CARGO_MANIFEST_DIR"));
    own.ancestors().nth(2).unwrap_or(own)
}

/// A relative folder, seen from where cargo was called: cargo starts this program in the crate's folder, and only the
/// variable PWD tells of the other.
fn from_the_caller(folder: PathBuf) -> PathBuf {
    if folder.is_absolute() {
        return folder;
    }
    println!("cargo::rerun-if-env-changed=PWD");
    std::env::var_os("PWD").map_or(folder.clone(), |caller| Path::new(&caller).join(folder))
}

fn main() {
    let folder = folder();
    println!("cargo::rerun-if-changed={}", folder.join(ARCHIVE).display());
    if folder.join(ARCHIVE).is_file() {
        println!("cargo::rustc-link-search=native={}", folder.display());
    } else {
        println!(
            "cargo::error=no {ARCHIVE} in {}: run `rt lib` in crates/facts_c of the repository, or set FACTS_LIB \
             to the folder that has it",
            folder.display()
        );
    }
}
