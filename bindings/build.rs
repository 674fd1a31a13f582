//! Finds libmengkiloh, the proved library, and links it.
//!
//! It is looked for in the folder that MENGKILOH_LIB names, or whose library it
//! names (a relative one is taken from where cargo was called), in
//! target/mengkiloh of the repository, where `./build` makes it, and by
//! pkg-config. The archive is linked where there is one, so that a program needs
//! no path when it runs.

use std::env;
use std::path::{Path, PathBuf};
use std::process::Command;

fn main() {
    println!("cargo:rerun-if-changed=build.rs");
    for name in ["MENGKILOH_LIB", "PKG_CONFIG_PATH"] {
        println!("cargo:rerun-if-env-changed={name}");
    }
    let Some((folder, kind)) = found() else {
        eprintln!("{WHAT_TO_RUN}");
        std::process::exit(1);
    };
    println!("cargo:rustc-link-search=native={}", folder.display());
    println!("cargo:rustc-link-lib={kind}=mengkiloh");
}

const WHAT_TO_RUN: &str = "libmengkiloh is not found. Any of these makes it found:
  ./build at the root of the repository, which makes it in target/mengkiloh;
  MENGKILOH_LIB=FOLDER, a folder with libmengkiloh.a or libmengkiloh.so;
  ./build --install PREFIX, and PREFIX/lib/pkgconfig in PKG_CONFIG_PATH.";

/// The folder of the library, and how it is linked.
fn found() -> Option<(PathBuf, &'static str)> {
    if let Some(named) = env::var_os("MENGKILOH_LIB") {
        // the build script stands in the package, cargo's caller in PWD
        let mut folder = PathBuf::from(env::var_os("PWD").unwrap_or_default()).join(named);
        if folder.is_file() {
            folder.pop();
        }
        let kind = held(&folder);
        if kind.is_none() {
            eprintln!("MENGKILOH_LIB: no libmengkiloh in {}", folder.display());
        }
        return Some((folder, kind?));
    }
    let made = Path::new(env!("CARGO_MANIFEST_DIR")).join("../target/mengkiloh");
    if let Some(kind) = held(&made) {
        return Some((made, kind));
    }
    println!("cargo:rerun-if-changed={}", made.display());
    let asked = Command::new("pkg-config")
        .args(["--variable=libdir", "mengkiloh"])
        .output()
        .ok()?;
    let folder = PathBuf::from(String::from_utf8(asked.stdout).ok()?.trim());
    let kind = held(&folder)?;
    Some((folder, kind))
}

/// How the library of a folder is linked, if there is one.
fn held(folder: &Path) -> Option<&'static str> {
    let kinds = [("libmengkiloh.a", "static"), ("libmengkiloh.so", "dylib")];
    let (file, kind) = kinds
        .into_iter()
        .find(|(file, _)| folder.join(file).is_file())?;
    println!("cargo:rerun-if-changed={}", folder.join(file).display());
    Some(kind)
}
