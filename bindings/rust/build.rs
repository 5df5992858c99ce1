//! Links the library statically. The folder of liboutlines.a is the one that OUTLINES_ARCHIVE names or, if that is not set, the
//! one that pkg-config has for the package `outlines`, in a version that this crate can call.

use std::env;
use std::path::{Path, PathBuf};
use std::process::Command;

const ARCHIVE: &str = "liboutlines.a";

const TO_INSTALL: &str = "run `make install PREFIX=/some/folder` in the library's repository and set \
                          PKG_CONFIG_PATH=/some/folder/lib/pkgconfig";

/// What pkg-config prints; nothing if it finds no such package.
fn pkg_config(arguments: &[&str]) -> Result<Option<String>, String> {
    let asked = Command::new("pkg-config").args(arguments).output();
    let output = asked.map_err(|why| format!("pkg-config does not run ({why})"))?;
    Ok(output.status.success().then(|| String::from_utf8_lossy(&output.stdout).trim().to_string()))
}

/// The folder that pkg-config names, or why it names none. The library must not be older than this crate, and its version must have
/// the same first number: with another one a call may have other arguments.
fn installed() -> Result<PathBuf, String> {
    let version = env!("CARGO_PKG_VERSION");
    let first: u32 = env!("CARGO_PKG_VERSION_MAJOR").parse().expect("cargo's own number");
    let (least, below) = (format!("outlines >= {version}"), format!("outlines < {}", first + 1));
    let compatible = pkg_config(&["--exists", &least, &below])?.is_some();
    let folder = pkg_config(&["--variable=libdir", "outlines"])?.filter(|folder| compatible && !folder.is_empty());
    folder
        .map(PathBuf::from)
        .ok_or_else(|| format!("pkg-config finds no package `outlines` that is compatible with {version}"))
}

/// The whole path of the folder, if the archive is there. The linker works in another folder than this script.
fn with_archive(folder: &Path) -> Result<PathBuf, String> {
    let whole = folder.canonicalize().ok().filter(|whole| whole.join(ARCHIVE).is_file());
    whole.ok_or_else(|| format!("names the folder {}, which holds no {ARCHIVE}", folder.display()))
}

/// The archive's folder, or what to do. A folder that OUTLINES_ARCHIVE names is the only one tried: another library must not take
/// the place of the one that was asked for.
fn folder() -> Result<PathBuf, String> {
    if let Some(named) = env::var_os("OUTLINES_ARCHIVE").filter(|named| !named.is_empty()) {
        let found = with_archive(Path::new(&named));
        return found.map_err(|why| {
            format!("OUTLINES_ARCHIVE {why}: set it to the folder that holds {ARCHIVE}, or unset it, {TO_INSTALL}")
        });
    }
    let found = installed().and_then(|folder| with_archive(&folder).map_err(|why| format!("pkg-config {why}")));
    found.map_err(|why| format!("{why}: {TO_INSTALL}, or set OUTLINES_ARCHIVE to the folder that holds {ARCHIVE}"))
}

fn link(folder: &Path) {
    println!("cargo::rerun-if-changed={}", folder.join(ARCHIVE).display());
    println!("cargo::rustc-link-search=native={}", folder.display());
    println!("cargo::rustc-link-lib=static=outlines");
}

fn main() {
    println!("cargo::rerun-if-changed=build.rs");
    for name in ["OUTLINES_ARCHIVE", "PKG_CONFIG_PATH", "PKG_CONFIG_LIBDIR"] {
        println!("cargo::rerun-if-env-changed={name}");
    }
    match folder() {
        Ok(folder) => link(&folder),
        Err(why) => println!("cargo::error={why}"),
    }
}
