//! A file that the Rust's answers are stored in: written, or held to what they are now.
use std::path::Path;
use std::process::ExitCode;
use std::{env, fs};

/// With --check on the command line each file is compared, else it is written. Paths are from the project's root.
pub fn keep(files: &[(&str, &[u8])]) -> ExitCode {
    let root = Path::new(env!("CARGO_MANIFEST_DIR")).join("..");
    let check = env::args().skip(1).any(|word| word == "--check");
    let mut same = true;
    for (name, bytes) in files {
        let path = root.join(name);
        if !check {
            fs::write(&path, bytes).unwrap_or_else(|error| panic!("{name}: {error}"));
        } else if fs::read(&path).ok().as_deref() != Some(bytes) {
            println!("{name} is not what the Rust answers");
            same = false;
        }
    }
    if same {
        ExitCode::SUCCESS
    } else {
        ExitCode::FAILURE
    }
}
