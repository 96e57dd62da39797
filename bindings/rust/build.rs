//! Finds libcroner.a: in the folder that CRONER_LIB_DIR names, else where pkg-config finds croner, else in the system's folders.

use std::env;
use std::path::{Path, PathBuf};
use std::process::{exit, Command};

const SYSTEM: [&str; 3] = ["/usr/local/lib", "/usr/lib/x86_64-linux-gnu", "/usr/lib"];

fn by_pkg_config() -> Option<PathBuf> {
    let said = Command::new("pkg-config")
        .args(["--variable=libdir", "croner"])
        .output()
        .ok()?;
    let folder = String::from_utf8(said.stdout).ok()?;
    (said.status.success() && !folder.trim().is_empty()).then(|| PathBuf::from(folder.trim()))
}

fn has_library(folder: &Path) -> bool {
    folder.join("libcroner.a").is_file()
}

fn main() {
    println!("cargo:rerun-if-env-changed=CRONER_LIB_DIR");
    println!("cargo:rerun-if-changed=build.rs");
    let named = env::var_os("CRONER_LIB_DIR").map(PathBuf::from);
    let places = match named {
        Some(folder) => vec![folder],
        None => by_pkg_config().into_iter().chain(SYSTEM.map(PathBuf::from)).collect(),
    };
    let folder = match places.iter().find(|it| has_library(it)) {
        Some(folder) => folder,
        None => {
            eprintln!("there is no libcroner.a in {places:?}: set CRONER_LIB_DIR to its folder");
            exit(1);
        }
    };
    println!("cargo:rerun-if-changed={}", folder.join("libcroner.a").display());
    println!("cargo:rustc-link-search=native={}", folder.display());
    println!("cargo:rustc-link-lib=static=croner");
}
