//! Finds libgorbihesh.a: the file that `GORBIHESH_ARCHIVE` names, else the one that `make archive` puts into
//! target/lib of the repository that this crate stands in, else the one that is installed, by pkg-config.

use std::env;
use std::path::{Path, PathBuf};
use std::process::Command;

const VARIABLE: &str = "GORBIHESH_ARCHIVE";
const NAME: &str = "libgorbihesh.a";

fn main() {
    println!("cargo::rerun-if-env-changed={VARIABLE}");
    let found = match env::var_os(VARIABLE) {
        Some(path) => Some(PathBuf::from(path)),
        None => beside().or_else(installed),
    };
    let Some(path) = found else {
        println!(
            "cargo::error=there is no {NAME}: run `make archive`, install it, or name one by {VARIABLE}"
        );
        return;
    };
    match path.canonicalize() {
        Ok(path) => link(&path),
        Err(fault) => println!("cargo::error={}: {fault}", path.display()),
    }
}

/// In the repository that this crate stands in.
fn beside() -> Option<PathBuf> {
    let lib = Path::new(env!("CARGO_MANIFEST_DIR")).join("../../target/lib");
    Some(lib.join(NAME)).filter(|path| path.is_file())
}

fn installed() -> Option<PathBuf> {
    let mut command = Command::new("pkg-config");
    let asked = command.args(["--variable=libdir", "gorbihesh"]).output();
    let folder = String::from_utf8(asked.ok()?.stdout).ok()?;
    Some(Path::new(folder.trim_end()).join(NAME)).filter(|path| path.is_file())
}

fn link(archive: &Path) {
    println!("cargo::rerun-if-changed={}", archive.display());
    if let (Some(folder), Some(name)) = (archive.parent(), archive.file_name()) {
        let name = Path::new(name).display();
        println!("cargo::rustc-link-search=native={}", folder.display());
        println!("cargo::rustc-link-lib=static:+verbatim={name}");
    }
}
