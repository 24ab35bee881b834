//! Links libkernelharp.a: the file that KERNELHARP_ARCHIVE names (in the library's own repository a
//! relative path is below its root), else in that repository the one that was built there, else the
//! one that pkg-config knows. It is never built here: to prove it takes minutes, which `make` shows.

use std::env;
use std::path::{Path, PathBuf};
use std::process::Command;

const VARIABLE: &str = "KERNELHARP_ARCHIVE";
const NAME: &str = "libkernelharp.a";

fn main() {
    let package = env::var_os("CARGO_MANIFEST_DIR").expect("cargo runs this");
    let root = repository(Path::new(&package));
    let archive = match (env::var_os(VARIABLE), root) {
        (Some(path), Some(root)) => root.join(path),
        (Some(path), None) => PathBuf::from(path),
        (None, root) => root
            .and_then(built_archive)
            .unwrap_or_else(installed_archive),
    };
    let is_archive = archive.file_name().is_some_and(|name| name == NAME) && archive.is_file();
    assert!(is_archive, "{} is no file {NAME}", archive.display());
    let folder = archive.parent().expect("a file's folder");
    println!("cargo:rerun-if-env-changed={VARIABLE}");
    println!("cargo:rerun-if-env-changed=PKG_CONFIG_PATH");
    println!("cargo:rerun-if-env-changed=PKG_CONFIG_LIBDIR");
    println!("cargo:rerun-if-changed={}", archive.display());
    println!("cargo:rustc-link-search=native={}", folder.display());
    println!("cargo:rustc-link-lib=static=kernelharp");
}

/// The repository that has the library's source, where the package lies within it.
fn repository(package: &Path) -> Option<&Path> {
    let mut above = package.ancestors();
    above.find(|folder| folder.join("crates/kernelharp/src/lib.rt").is_file())
}

/// The repository's own archive, where it was built.
fn built_archive(root: &Path) -> Option<PathBuf> {
    let archive = root.join("target/staticlib").join(NAME);
    println!("cargo:rerun-if-changed={}", archive.display());
    archive.is_file().then_some(archive)
}

/// The archive that was installed. Whether it is of this version, `Memory::new` asks it.
fn installed_archive() -> PathBuf {
    let asked = Command::new("pkg-config")
        .args(["--variable=libdir", "kernelharp"])
        .output();
    let hint = format!("no {NAME}: `make install` builds and installs it (README.md says what that needs), {VARIABLE} names none, and pkg-config finds none");
    let output = asked.unwrap_or_else(|fault| panic!("{hint}: {fault}"));
    let errors = String::from_utf8_lossy(&output.stderr);
    assert!(output.status.success(), "{hint}: {errors}");
    let folder = String::from_utf8(output.stdout).expect("a path");
    Path::new(folder.trim_end()).join(NAME)
}
