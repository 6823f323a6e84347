// Tells cargo where libfigures_c.a is: the folder FIGURES_LIBRARY, else the one that tools/library makes.
use std::path::PathBuf;
use std::{env, process};

fn main() {
    println!("cargo:rerun-if-env-changed=FIGURES_LIBRARY");
    let folder = match env::var_os("FIGURES_LIBRARY") {
        Some(folder) => PathBuf::from(folder),
        None => PathBuf::from(env!("CARGO_MANIFEST_DIR")).join("../../target/link"),
    };
    let archive = folder.join("libfigures_c.a");
    if !archive.exists() {
        eprintln!(
            "{} is missing: run tools/library, or give its folder as FIGURES_LIBRARY",
            archive.display()
        );
        process::exit(1);
    }
    println!("cargo:rerun-if-changed={}", archive.display());
    println!("cargo:rustc-link-search=native={}", folder.display());
}
