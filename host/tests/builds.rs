//! What build.rs says where the archive cannot be linked, in place of a linker's error.
use std::process::Command;

const OURS: &str = "x86_64-unknown-linux-gnu";

/// What cargo says of building this crate for a target, with libcrsf.a looked for in that folder; and whether it does.
fn built(target: &str, folder: Option<&str>) -> (bool, String) {
    let mut cargo = Command::new(env!("CARGO"));
    cargo
        .args(["check", "--offline", "--target", target])
        .args(["--target-dir", env!("CARGO_TARGET_TMPDIR")])
        .current_dir(env!("CARGO_MANIFEST_DIR"));
    if let Some(folder) = folder {
        cargo.env("CRSF_ARCHIVE", folder);
    }
    let ran = cargo.output().expect("cargo runs");
    let said = String::from_utf8_lossy(&ran.stderr).into_owned();
    (ran.status.success(), said)
}

#[test]
fn its_own_target_is_built() {
    let (built, said) = built(OURS, None);
    assert!(built, "{said}");
}

#[test]
fn a_target_that_the_archive_is_not_for_is_refused_by_its_name() {
    let others = [
        "aarch64-unknown-linux-gnu",
        "i686-unknown-linux-gnu",
        "x86_64-unknown-linux-gnux32",
        "x86_64-pc-windows-gnu",
        "x86_64-apple-darwin",
    ];
    for target in others {
        let (built, said) = built(target, None);
        let words = format!("does not link into a program for {target}.");
        assert!(!built && said.contains(&words), "{target}: {said}");
    }
}

#[test]
fn a_missing_archive_is_named_and_how_to_make_it() {
    let empty = env!("CARGO_TARGET_TMPDIR");
    let (built, said) = built(OURS, Some(empty));
    assert!(!built);
    for words in [
        &*format!("{empty}/libcrsf.a is missing."),
        "Run `tools/made crsf`",
        "or set CRSF_ARCHIVE",
    ] {
        assert!(said.contains(words), "{said}");
    }
}
