//! Links libcrsf.a from the folder that CRSF_ARCHIVE names (one that is not absolute counts from this crate's folder), else from
//! target/staticlib at the project's root. Crates that depend on this one are told the folder: DEP_CRSF_FOLDER in their build.rs.
use std::env;
use std::path::{Path, PathBuf};
use std::process::exit;

const VARIABLE: &str = "CRSF_ARCHIVE";

/// What cargo says of the target that is built for.
fn target(what: &str) -> String {
    env::var(format!("CARGO_CFG_TARGET_{what}")).unwrap_or_default()
}

/// The archive is x86-64 code with pointers of 64 bits, in ELF and called as System V has it. It asks nothing of an operating system.
fn links() -> bool {
    let other_format = ["windows", "cygwin", "uefi"].contains(&target("OS").as_str());
    target("ARCH") == "x86_64"
        && target("POINTER_WIDTH") == "64"
        && target("VENDOR") != "apple"
        && !other_format
}

fn wrong_target() -> ! {
    let target = env::var("TARGET").expect("cargo names the target");
    eprintln!("libcrsf.a is x86-64 code in ELF, as on Linux, and does not link into a program for {target}.");
    eprintln!(
        "Build for x86_64-unknown-linux-gnu; `tools/x86_64 cargo ..` does so on any machine."
    );
    exit(1)
}

fn folder() -> PathBuf {
    let here =
        PathBuf::from(env::var_os("CARGO_MANIFEST_DIR").expect("cargo names the crate's folder"));
    here.join(env::var_os(VARIABLE).unwrap_or_else(|| "../target/staticlib".into()))
}

fn missing(archive: &Path) -> ! {
    eprintln!("{} is missing.", archive.display());
    eprintln!(
        "Run `tools/made crsf` at the project's root, which makes target/staticlib/libcrsf.a,"
    );
    eprintln!("or set {VARIABLE} to the folder that holds libcrsf.a.");
    exit(1)
}

fn main() {
    println!("cargo:rerun-if-env-changed={VARIABLE}");
    if !links() {
        wrong_target();
    }
    let folder = folder();
    let archive = folder.join("libcrsf.a");
    if !archive.is_file() {
        missing(&archive);
    }
    println!("cargo:rerun-if-changed={}", archive.display());
    println!("cargo:rustc-link-search=native={}", folder.display());
    println!("cargo:rustc-link-lib=static=crsf");
    println!("cargo:folder={}", folder.display());
}
