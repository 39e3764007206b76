//! Copies uf-crsf's own files, byte for byte, beside the two that stand in for its lib.rs and packets/mod.rs.
use std::path::{Path, PathBuf};
use std::process::exit;
use std::{env, fs};

/// Everything that the direct commands need; nothing of it is changed.
const FILES: [&str; 9] = [
    "constants.rs",
    "error.rs",
    "packets/commands.rs",
    "packets/commands/bluetooth.rs",
    "packets/commands/codec.rs",
    "packets/commands/general.rs",
    "packets/commands/led.rs",
    "packets/commands/rc_over_wifi.rs",
    "packets/commands/screen.rs",
];

const STAND_INS: [(&str, &str); 2] = [
    ("stand-ins/root.rs", "root.rs"),
    ("stand-ins/packets.rs", "packets/mod.rs"),
];

fn copy(from: &Path, to: &Path) {
    println!("cargo:rerun-if-changed={}", from.display());
    if let Err(error) = fs::copy(from, to) {
        eprintln!("{}: {error}.", from.display());
        eprintln!("Set UF_CRSF_SRC to the folder that holds uf-crsf's src/.");
        exit(1);
    }
}

fn main() {
    println!("cargo:rerun-if-env-changed=UF_CRSF_SRC");
    let here = PathBuf::from(env::var_os("CARGO_MANIFEST_DIR").unwrap());
    let source = match env::var_os("UF_CRSF_SRC") {
        Some(folder) => PathBuf::from(folder),
        None => here.join("../../../shared/docs/src"),
    };
    let out = PathBuf::from(env::var_os("OUT_DIR").unwrap());
    fs::create_dir_all(out.join("packets/commands")).unwrap();
    for file in FILES {
        copy(&source.join("src").join(file), &out.join(file));
    }
    for (from, to) in STAND_INS {
        copy(&here.join(from), &out.join(to));
    }
}
