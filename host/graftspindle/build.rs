//! Links the proved libraries, one for each crate of what Rust calls, that `host/build` writes.

use std::path::{Path, PathBuf};
use std::process::Command;

/// `NAME` of each `libNAME.a` in the folder, in the order of their names; none where there is no such folder.
fn libraries(folder: &Path) -> Vec<String> {
    let entries = std::fs::read_dir(folder).into_iter().flatten().flatten();
    let name = |file: &str| file.strip_prefix("lib")?.strip_suffix(".a").map(str::to_string);
    let mut names: Vec<String> = entries.filter_map(|entry| name(entry.file_name().to_str()?)).collect();
    names.sort();
    names
}

/// The crates that have to be there; `service` alone where the project around this package cannot be asked.
fn needed(host: &Path) -> Vec<String> {
    let told = Command::new(host.join("exporting")).output().map(|told| told.stdout).unwrap_or_default();
    let names: Vec<String> = String::from_utf8_lossy(&told).split_whitespace().map(str::to_string).collect();
    if names.is_empty() {
        vec!["service".to_string()]
    } else {
        names
    }
}

fn main() {
    let here = PathBuf::from(std::env::var_os("CARGO_MANIFEST_DIR").expect("cargo names the package's folder"));
    let host = here.parent().expect("the package lies in host/");
    let folder = host.join("target/proved");
    println!("cargo::rerun-if-changed={}", folder.display());
    println!("cargo::rerun-if-changed={}", host.join("../crates.txt").display());
    let names = libraries(&folder);
    let missing: Vec<String> = needed(host).into_iter().filter(|name| !names.contains(name)).collect();
    if !missing.is_empty() {
        let (folder, command) = (folder.display(), host.join("build"));
        println!("cargo::error=the proved library is missing: {folder} lacks lib{}.a", missing.join(".a, lib"));
        println!(
            "cargo::error=this command makes it, and needs the Rattle toolchain (rt) on the path: {}",
            command.display()
        );
    }
    println!("cargo::rustc-link-search=native={}", folder.display());
    for name in names {
        println!("cargo::rustc-link-lib=static={name}");
    }
}
