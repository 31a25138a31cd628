//! Finds `libkeeper.a`, and the archives of the features asked for: in the
//! folder that `KEEPER_LIB_DIR` names, or else in `target/staticlib` of the
//! repository. Says what to do when one is not there.

use std::env;
use std::path::{Path, PathBuf};
use std::process::exit;

/// The archives, and what says that one is asked for.
const ARCHIVES: [(&str, Option<&str>); 3] = [
    ("keeper", None),
    ("run_table", Some("CARGO_FEATURE_RUN_TABLE")),
    ("listing_text", Some("CARGO_FEATURE_LISTING_TEXT")),
];

fn main() {
    println!("cargo:rerun-if-env-changed=KEEPER_LIB_DIR");
    println!("cargo:rerun-if-changed=build.rs");
    let package = PathBuf::from(env::var_os("CARGO_MANIFEST_DIR").expect("cargo sets it"));
    let named = env::var_os("KEEPER_LIB_DIR").filter(|folder| !folder.is_empty());
    let folder = match &named {
        // A relative name counts from this package's folder.
        Some(folder) => package.join(folder),
        None => package.join("../../target/staticlib"),
    };
    println!("cargo:rustc-link-search=native={}", folder.display());
    for (name, feature) in ARCHIVES {
        if feature.is_some_and(|feature| env::var_os(feature).is_none()) {
            continue;
        }
        let archive = folder.join(format!("lib{name}.a"));
        if !archive.is_file() {
            missing(&archive, named.is_some());
        }
        println!("cargo:rerun-if-changed={}", archive.display());
        println!("cargo:rustc-link-lib=static={name}");
    }
    if env::var("CARGO_CFG_TARGET_ARCH").as_deref() != Ok("x86_64") {
        eprintln!("keeper: the archives are for x86-64, and this build is for another machine");
        exit(1);
    }
}

fn missing(archive: &Path, named: bool) -> ! {
    eprintln!("keeper: {} is not there.", archive.display());
    if named {
        eprintln!(
            "keeper: KEEPER_LIB_DIR names that folder (a relative name counts from bindings/rust)."
        );
    } else {
        eprintln!("keeper: KEEPER_LIB_DIR is not set, so the repository's target/staticlib was looked in.");
    }
    eprintln!(
        "keeper: `make archives` in the repository proves the libraries and writes the archives."
    );
    exit(1);
}
