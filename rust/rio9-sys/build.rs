//! Finds the library of rio9: in the folder that RIO9_LIB_DIR names, or where pkg-config's file rio9.pc tells.

use std::env;
use std::fs;
use std::path::{Path, PathBuf};

const USUAL: [&str; 4] =
    ["/usr/local/lib/pkgconfig", "/usr/local/share/pkgconfig", "/usr/lib/pkgconfig", "/usr/share/pkgconfig"];

fn main() {
    println!("cargo:rerun-if-env-changed=RIO9_LIB_DIR");
    println!("cargo:rerun-if-env-changed=PKG_CONFIG_PATH");
    let Some(folder) = folder() else {
        eprintln!(
            "rio9-sys: there is no library of rio9: tools/install.sh PREFIX installs it; then set RIO9_LIB_DIR to \
             PREFIX/lib, or PKG_CONFIG_PATH to PREFIX/lib/pkgconfig"
        );
        std::process::exit(1);
    };
    let kind = if folder.join("librio9.a").is_file() { "static" } else { "dylib" };
    println!("cargo:rustc-link-search=native={}", folder.display());
    println!("cargo:rustc-link-lib={kind}=rio9");
    // What depends on this crate finds these as DEP_RIO9_LIB_DIR and DEP_RIO9_KIND.
    println!("cargo:lib_dir={}", folder.display());
    println!("cargo:kind={kind}");
}

/// The folder of the library.
fn folder() -> Option<PathBuf> {
    if let Some(told) = env::var_os("RIO9_LIB_DIR") {
        return has_library(PathBuf::from(told));
    }
    let told = env::var_os("PKG_CONFIG_PATH").unwrap_or_default();
    env::split_paths(&told)
        .chain(USUAL.iter().map(PathBuf::from))
        .filter_map(|place| fs::read_to_string(place.join("rio9.pc")).ok())
        .find_map(|text| has_library(library_folder(&text)?))
}

fn has_library(folder: PathBuf) -> Option<PathBuf> {
    let is_there = |name: &str| Path::new(&folder).join(name).is_file();
    (is_there("librio9.a") || is_there("librio9.so")).then_some(folder)
}

/// The folder that a file of pkg-config names as `libdir`, with the variables in it.
fn library_folder(text: &str) -> Option<PathBuf> {
    let mut variables: Vec<(&str, String)> = Vec::new();
    for line in text.lines() {
        if let Some((name, value)) = line.split_once('=').filter(|(name, _)| !name.contains(':')) {
            let value = variables
                .iter()
                .fold(value.trim().to_string(), |value, (name, is)| value.replace(&format!("${{{name}}}"), is));
            variables.push((name.trim(), value));
        }
    }
    let (_, folder) = variables.into_iter().find(|(name, _)| *name == "libdir")?;
    Some(PathBuf::from(folder))
}
