//! Links the archive that `./archive` writes, in target/staticlib of the repository.

use std::env;
use std::path::PathBuf;
use std::process::exit;

fn main() {
    let manifest = env::var("CARGO_MANIFEST_DIR").expect("cargo names the package's folder");
    let folder = PathBuf::from(manifest).join("../../target/staticlib");
    let archive = folder.join("libplan_c.a");
    println!("cargo:rerun-if-changed={}", archive.display());
    if !archive.is_file() {
        eprintln!("{} is missing: run `./archive` first", archive.display());
        exit(1);
    }
    println!("cargo:rustc-link-search=native={}", folder.display());
    println!("cargo:rustc-link-lib=static=plan_c");
}
