//! What `make demo` begins with, tests/archive, over an `rt` that only says what it was asked for.

use std::os::unix::fs::PermissionsExt;
use std::path::{Path, PathBuf};
use std::process::{self, Command, Output};
use std::{env, fs};

const CRATES: &str = "# a comment
wire:
model: wire
apart: model
kernelharp staticlib: model json # the kit has json
";

/// A folder that goes with its owner. It lies outside this repository, in which rt takes no second crates.txt.
struct Folder(PathBuf);

impl Drop for Folder {
    fn drop(&mut self) {
        let _ = fs::remove_dir_all(&self.0);
    }
}

/// A repository that has the script, and four crates.
fn repository(name: &str) -> Folder {
    let folder = env::temp_dir().join(format!("kernelharp-{name}-{}", process::id()));
    for part in ["tests", "bin", "crates/kernelharp/out"] {
        fs::create_dir_all(folder.join(part)).unwrap();
    }
    let script = Path::new(env!("CARGO_MANIFEST_DIR")).join("../../tests/archive");
    fs::copy(script, folder.join("tests/archive")).unwrap();
    fs::write(folder.join("crates.txt"), CRATES).unwrap();
    Folder(folder)
}

/// Has an `rt` that runs these commands.
fn install(folder: &Folder, commands: &str) {
    let path = folder.0.join("bin/rt");
    fs::write(&path, format!("#!/bin/sh\n{commands}\n")).unwrap();
    fs::set_permissions(path, fs::Permissions::from_mode(0o755)).unwrap();
}

fn make(folder: &Folder) -> Output {
    let mut command = Command::new("bash");
    let path = format!("{}:/usr/bin:/bin", folder.0.join("bin").display());
    command.arg("tests/archive").current_dir(&folder.0);
    command.env("PATH", path).output().unwrap()
}

fn text(bytes: &[u8]) -> &str {
    std::str::from_utf8(bytes).unwrap()
}

#[test]
fn every_crate_is_proved_first() {
    let folder = repository("made");
    install(
        &folder,
        "case $1 in
           version) echo kit-0 logic ;;
           all) echo rt: $1 $2 $3 ;;
           lib) echo rt: $* && touch out/libkernelharp.a ;;
         esac",
    );
    let made = make(&folder);
    assert!(made.status.success() && made.stderr.is_empty(), "{made:?}");
    let lines: Vec<&str> = text(&made.stdout).lines().collect();
    let [begin, end] = lines[..] else {
        panic!("{lines:?}");
    };
    assert!(begin.contains(" 4 crates ") && begin.contains(" by kit-0,"));
    assert!(end.contains(" is made, "), "{end}");
    let said = fs::read_to_string(folder.0.join("target/log/archive.txt")).unwrap();
    assert_eq!(
        said,
        "rt: all check --jobs\n== libkernelharp.a\nrt: lib --cpu x86-64\n"
    );
    let archive = folder.0.join("target/staticlib/libkernelharp.a");
    assert!(archive.is_file());
}

#[test]
fn a_proof_that_fails_shows_its_last_lines() {
    let folder = repository("failed");
    install(&folder, "seq 100 | sed \"s/^/$1 /\"; [ $1 = version ]");
    let failed = make(&folder);
    assert_eq!(failed.status.code(), Some(1));
    let lines: Vec<&str> = text(&failed.stderr).lines().collect();
    assert!(lines[0].contains("target/log/archive.txt"), "{lines:?}");
    let last: Vec<String> = (81..=100).map(|number| format!("all {number}")).collect();
    assert_eq!(lines[1..], last);
}

#[test]
fn without_the_toolchain_it_is_named() {
    let folder = repository("without");
    let failed = make(&folder);
    assert_eq!(failed.status.code(), Some(1));
    let said = text(&failed.stderr);
    assert!(said.contains("Rattle toolchain (rattle-kit-13f)"), "{said}");
    assert!(said.contains("README.md") && failed.stdout.is_empty());
}
