//! With the feature `proved`: links the static library of the proved functions, which is in
//! ../target/staticlib, or in the folder that LOOPCINDER_STATICLIB names.

use std::env;
use std::path::PathBuf;
use std::process::Command;

fn main() {
    println!("cargo::rerun-if-changed=build.rs");
    if env::var_os("CARGO_FEATURE_PROVED").is_none() {
        return;
    }
    println!("cargo::rerun-if-env-changed=LOOPCINDER_STATICLIB");
    let folder = folder();
    let archive = folder.join("libexports.a");
    println!("cargo::rerun-if-changed={}", archive.display());
    if !archive.is_file() {
        println!(
            "cargo::error={} is missing: run 'tools/build staticlib/libexports.a' in the repository, or name the \
             library's folder in LOOPCINDER_STATICLIB",
            archive.display()
        );
        return;
    }
    println!("cargo::rustc-link-search=native={}", folder.display());
    println!("cargo::rustc-link-lib=static=exports");
    println!("cargo::rustc-env=RUSTC_VERSION={}", rustc_version());
}

fn folder() -> PathBuf {
    if let Some(folder) = env::var_os("LOOPCINDER_STATICLIB") {
        return PathBuf::from(folder);
    }
    let package = env::var_os("CARGO_MANIFEST_DIR").map_or_else(PathBuf::new, PathBuf::from);
    let repository = package.parent().map_or_else(PathBuf::new, PathBuf::from);
    repository.join("target").join("staticlib")
}

/// What `rustc --version` says, for the header of the benchmark.
fn rustc_version() -> String {
    let rustc = env::var_os("RUSTC").unwrap_or_else(|| "rustc".into());
    let output = Command::new(rustc).arg("--version").output();
    output.map_or_else(
        |_| "rustc of unknown version".into(),
        |output| String::from_utf8_lossy(&output.stdout).trim().to_string(),
    )
}
