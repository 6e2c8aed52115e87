//! Finds the archives of the core, or builds them.
//!
//! There is one, `libhost_X.a`, for each static library `host_X_c` in the repository's `crates.txt`. They are looked for in the
//! folder that `WOTSKRALE_ARCHIVES` names, else in `target/staticlib` of the repository. In the second place a missing archive
//! is built with `rt lib` in the folder of `host_X_c`, which proves what it builds, and copied there under its name.

use std::env;
use std::fs;
use std::path::{Path, PathBuf};
use std::process::Command;

fn main() {
    println!("cargo:rerun-if-env-changed=WOTSKRALE_ARCHIVES");
    println!("cargo:rerun-if-changed=build.rs");
    let repository = repository();
    let names = names(&repository.join("crates.txt"));
    let exported = names.iter().any(|name| name.starts_with("host_store"));
    if env::var_os("CARGO_FEATURE_STORE").is_some() && !exported {
        stop("no crate exports the store's calls: build with --no-default-features");
    }
    let folder = match env::var_os("WOTSKRALE_ARCHIVES") {
        Some(given) => named(PathBuf::from(given), &names),
        None => of_repository(&repository, &names),
    };
    for name in &names {
        println!(
            "cargo:rerun-if-changed={}",
            archive(&folder, name).display()
        );
        println!("cargo:rustc-link-lib=static={name}");
    }
    println!("cargo:rustc-link-search=native={}", folder.display());
    println!("cargo:rustc-env=WOTSKRALE_FOUND={}", folder.display());
    println!("cargo:rustc-env=WOTSKRALE_NAMES={}", names.join(" "));
}

fn repository() -> PathBuf {
    let here = PathBuf::from(env::var_os("CARGO_MANIFEST_DIR").unwrap_or_default());
    match here.join("../..").canonicalize() {
        Ok(folder) => folder,
        Err(error) => stop(&format!("the repository's folder: {error}")),
    }
}

/// The archives: `host_X` for each line whose crate `host_X_c` is a static library. A line is a name, words on the crate, a colon
/// and what the crate uses.
fn names(list: &Path) -> Vec<String> {
    println!("cargo:rerun-if-changed={}", list.display());
    let text = match fs::read_to_string(list) {
        Ok(text) => text,
        Err(error) => stop(&format!("{}: {error}", list.display())),
    };
    text.lines().filter_map(exported_by).collect()
}

fn exported_by(line: &str) -> Option<String> {
    let (said, _) = line.split('#').next()?.split_once(':')?;
    let mut words = said.split_whitespace();
    let name = words.next()?.strip_suffix("_c")?;
    let exports = name.starts_with("host_") && words.any(|word| word == "staticlib");
    exports.then(|| name.to_string())
}

fn archive(folder: &Path, name: &str) -> PathBuf {
    folder.join(format!("lib{name}.a"))
}

/// A folder that was named has to hold every archive: nothing is built there.
fn named(folder: PathBuf, names: &[String]) -> PathBuf {
    for name in names {
        if !archive(&folder, name).is_file() {
            stop(&format!(
                "WOTSKRALE_ARCHIVES is {}, and lib{name}.a is not there",
                folder.display()
            ));
        }
    }
    match folder.canonicalize() {
        Ok(folder) => folder,
        Err(error) => stop(&format!("{}: {error}", folder.display())),
    }
}

fn of_repository(repository: &Path, names: &[String]) -> PathBuf {
    let folder = repository.join("target/staticlib");
    for name in names {
        if !archive(&folder, name).is_file() {
            build(repository, name, &folder);
        }
    }
    folder
}

fn build(repository: &Path, name: &str, folder: &Path) {
    let place = repository.join(format!("crates/{name}_c"));
    let ran = Command::new("rt").arg("lib").current_dir(&place).status();
    match ran {
        Ok(status) if status.success() => {}
        Ok(status) => stop(&format!(
            "`rt lib` in {} ended with {status}",
            place.display()
        )),
        Err(error) => stop(&format!(
            "lib{name}.a is missing and `rt lib` cannot be started in {} ({error}); \
             put rt on PATH, or name the archives' folder in WOTSKRALE_ARCHIVES",
            place.display()
        )),
    }
    let built = archive(&place.join("out"), &format!("{name}_c"));
    let copied = fs::create_dir_all(folder).and_then(|()| fs::copy(&built, archive(folder, name)));
    if let Err(error) = copied {
        stop(&format!("{}: {error}", built.display()));
    }
}

fn stop(why: &str) -> ! {
    eprintln!("wotskrale: {why}");
    std::process::exit(1)
}
