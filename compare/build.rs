//! Links libagain.a from the folder that host/ has libcrsf.a from.
use std::env;
use std::path::PathBuf;
use std::process::exit;

fn main() {
    let folder = PathBuf::from(env::var_os("DEP_CRSF_FOLDER").expect("host/build.rs names it"));
    let archive = folder.join("libagain.a");
    if !archive.is_file() {
        eprintln!("{} is missing.", archive.display());
        eprintln!("Run `tools/made again` at the project's root.");
        exit(1);
    }
    println!("cargo:rerun-if-changed={}", archive.display());
    println!("cargo:rustc-link-search=native={}", folder.display());
    println!("cargo:rustc-link-lib=static=again");
}
