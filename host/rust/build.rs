//! Links libcabinet.a from the folder POSPOLARKU_LIB, or else from where `host/build` puts it.

use std::{env, path::PathBuf};

fn main() {
    println!("cargo::rerun-if-env-changed=POSPOLARKU_LIB");
    println!("cargo::rerun-if-changed=build.rs");
    if env::var_os("CARGO_FEATURE_STAND_IN").is_some() {
        return;
    }
    let here = PathBuf::from(env::var_os("CARGO_MANIFEST_DIR").unwrap());
    let folder = env::var_os("POSPOLARKU_LIB").map_or(here.join("../../target/staticlib"), PathBuf::from);
    let archive = folder.join("libcabinet.a");
    println!("cargo::rerun-if-changed={}", archive.display());
    if !archive.exists() {
        println!("cargo::error=no {}: run `host/build`, set POSPOLARKU_LIB, or use --features stand-in", archive.display());
    }
    println!("cargo::rustc-link-search=native={}", folder.display());
    println!("cargo::rustc-link-lib=static=cabinet");
}
