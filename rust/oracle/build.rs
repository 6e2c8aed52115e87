//! Puts links to the supplied Rust files beside the stand-ins for what is not supplied, so that their `mod` lines find both.
//! Nothing is copied and nothing is written outside cargo's own output folder.
//!
//! The files are looked for in the folder that `WILLOW_SRC` names, else in `shared/docs/src` beside the repository or one
//! folder further up.

use std::env;
use std::fs;
use std::io;
use std::os::unix::fs::symlink;
use std::path::{Path, PathBuf};

/// Where the files lie below the folder.
const BELOW: &str = "data-model/src";

/// The supplied files that are built; `store.rs` is not carried over.
const SUPPLIED: [&str; 9] = [
    "path/mod.rs",
    "path/component.rs",
    "path/representation.rs",
    "path/builder.rs",
    "grouping/range.rs",
    "grouping/area.rs",
    "grouping/area_of_interest.rs",
    "grouping/range_3d.rs",
    "entry.rs",
];

/// Modules that the supplied files name and that are not supplied.
const STANDINS: [&str; 3] = ["path/codec.rs", "grouping/mod.rs", "parameters.rs"];

fn main() {
    println!("cargo:rerun-if-env-changed=WILLOW_SRC");
    println!("cargo:rerun-if-changed=build.rs");
    if let Err(why) = run() {
        eprintln!("oracle: {why}");
        std::process::exit(1);
    }
}

fn run() -> Result<(), String> {
    let here = PathBuf::from(env::var_os("CARGO_MANIFEST_DIR").unwrap_or_default());
    let out = PathBuf::from(env::var_os("OUT_DIR").unwrap_or_default()).join("files");
    let source = source(&here.join("../.."))?;
    for name in SUPPLIED {
        link(&source.join(name), &out.join(name))?;
    }
    for name in STANDINS {
        link(&here.join("standin").join(name), &out.join(name))?;
    }
    let mut root = String::new();
    for (module, file) in [
        ("path", "path/mod.rs"),
        ("grouping", "grouping/mod.rs"),
        ("entry", "entry.rs"),
        ("parameters", "parameters.rs"),
    ] {
        let file = out.join(file);
        root += &format!(
            "#[path = {:?}]\npub mod {module};\n",
            file.display().to_string()
        );
    }
    fs::write(out.join("root.rs"), root).map_err(|e| format!("root.rs: {e}"))
}

/// The folder of the supplied files.
fn source(repository: &Path) -> Result<PathBuf, String> {
    let places = match env::var_os("WILLOW_SRC") {
        Some(given) => vec![PathBuf::from(given)],
        None => vec![
            repository.join("../shared/docs/src"),
            repository.join("../../shared/docs/src"),
        ],
    };
    for place in &places {
        if let Ok(found) = place.join(BELOW).canonicalize() {
            return Ok(found);
        }
    }
    Err(format!(
        "the Rust files are not found; set WILLOW_SRC to the folder that has {BELOW} (looked in {places:?})"
    ))
}

fn link(from: &Path, to: &Path) -> Result<(), String> {
    let said = |e: io::Error| format!("{} to {}: {e}", from.display(), to.display());
    println!("cargo:rerun-if-changed={}", from.display());
    fs::metadata(from).map_err(said)?;
    fs::create_dir_all(to.parent().unwrap_or(to)).map_err(said)?;
    match fs::remove_file(to) {
        Err(e) if e.kind() != io::ErrorKind::NotFound => return Err(said(e)),
        _ => {}
    }
    symlink(from, to).map_err(said)
}
