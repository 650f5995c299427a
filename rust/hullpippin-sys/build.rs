// SPDX-License-Identifier: Apache-2.0 OR MIT
//! Finds libhullpippin.a: by HULLPIPPIN_LIB, the archive or its folder, else by pkg-config.
use std::env;
use std::path::{Path, PathBuf};
use std::process::Command;

const LOOKED_AT: [&str; 3] = ["HULLPIPPIN_LIB", "PKG_CONFIG_PATH", "PKG_CONFIG"];

fn main() {
    for variable in LOOKED_AT {
        println!("cargo:rerun-if-env-changed={variable}");
    }
    // Documentation needs no library.
    if env::var_os("DOCS_RS").is_some() {
        return;
    }
    match archive() {
        Ok(path) => link(&path),
        Err(why) => {
            eprintln!("libhullpippin.a isn't found: {why}");
            eprintln!("Install it by `tools/install PREFIX` of Hullpippin's repository, and let PKG_CONFIG_PATH have");
            eprintln!("PREFIX/lib/pkgconfig; or let HULLPIPPIN_LIB name the archive, or the folder that it lies in.");
            std::process::exit(1);
        }
    }
}

/// Where the archive lies.
fn archive() -> Result<PathBuf, String> {
    let path = match env::var_os("HULLPIPPIN_LIB") {
        Some(word) => PathBuf::from(word),
        None => PathBuf::from(installed()?),
    };
    let path = if path.is_dir() { path.join("libhullpippin.a") } else { path };
    if path.is_file() {
        path.canonicalize().map_err(|error| format!("{}: {error}", path.display()))
    } else {
        Err(format!("there is no {}", path.display()))
    }
}

/// The folder of libraries that pkg-config tells.
fn installed() -> Result<String, String> {
    let program = env::var("PKG_CONFIG").unwrap_or_else(|_| "pkg-config".into());
    let done = Command::new(&program)
        .args(["--print-errors", "--variable=libdir", "hullpippin >= 1.0"])
        .output()
        .map_err(|error| format!("HULLPIPPIN_LIB isn't set, and {program} doesn't run: {error}"))?;
    if done.status.success() {
        Ok(String::from_utf8_lossy(&done.stdout).trim().into())
    } else {
        Err(format!("HULLPIPPIN_LIB isn't set, and {program} says: {}", String::from_utf8_lossy(&done.stderr).trim()))
    }
}

/// Has the archive linked.
fn link(path: &Path) {
    let folder = path.parent().expect("the folder of a file");
    let stem = path.file_stem().and_then(|name| name.to_str()).unwrap_or_default();
    let Some(name) = stem.strip_prefix("lib") else {
        panic!("{} isn't called libNAME.a", path.display());
    };
    println!("cargo:rerun-if-changed={}", path.display());
    println!("cargo:rustc-link-search=native={}", folder.display());
    println!("cargo:rustc-link-lib=static={name}");
}
