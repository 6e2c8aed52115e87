//! The declarations in `plain` against the archives and against the sources of the exported calls: every symbol, every
//! parameter, every result, and every field of what is passed and returned by value. The crate `host_X_c` exports the calls of
//! the archive `host_X`, and what they return by value is declared in the crate `host_X`.

use std::collections::{BTreeMap, BTreeSet};
use std::fs;
use std::path::{Path, PathBuf};
use std::process::Command;

/// A declaration: the types of its parameters, and its result.
type Signature = (Vec<String>, String);

/// Fields by name and type, in order.
type Fields = Vec<(String, String)>;

/// The names of the archives; not those of the store's where its calls are not declared.
fn names() -> impl Iterator<Item = &'static str> {
    let names = env!("WOTSKRALE_NAMES").split(' ');
    names.filter(|name| cfg!(feature = "store") || !name.starts_with("host_store"))
}

fn without_space(text: &str) -> String {
    text.split_whitespace().collect()
}

fn declared() -> BTreeMap<String, Signature> {
    let lists = [
        wotskrale::plain::DECLARED,
        #[cfg(feature = "store")]
        wotskrale::plain::DECLARED_OF_STORE,
    ];
    let each = lists.into_iter().flatten().map(|(symbol, types, result)| {
        let types = types.iter().map(|t| without_space(t)).collect();
        (symbol.to_string(), (types, result.to_string()))
    });
    each.collect()
}

/// The global text symbols of all archives that were linked.
fn exported() -> BTreeSet<String> {
    let mut symbols = BTreeSet::new();
    let folder = PathBuf::from(env!("WOTSKRALE_FOUND"));
    for name in names() {
        let archive = folder.join(format!("lib{name}.a"));
        let ran = Command::new("nm")
            .arg("-g")
            .arg("--defined-only")
            .arg(&archive)
            .output();
        let ran = ran.expect("nm, from binutils, is needed for this test");
        assert!(ran.status.success(), "nm on {}", archive.display());
        for line in String::from_utf8_lossy(&ran.stdout).lines() {
            if let Some((_, symbol)) = line.split_once(" T ") {
                symbols.insert(symbol.to_string());
            }
        }
    }
    symbols
}

#[test]
fn each_declared_symbol_is_in_the_archives_and_conversely() {
    let declared: BTreeSet<String> = declared().into_keys().collect();
    assert!(declared.len() >= 70, "{} declared", declared.len());
    assert_eq!(declared, exported());
}

/// The Rattle sources of a crate.
fn source(name: &str) -> String {
    let folder = Path::new(env!("CARGO_MANIFEST_DIR")).join("../../crates");
    fs::read_to_string(folder.join(name).join("src/lib.rt")).expect("the source of a crate")
}

/// For each exported function of a source: its parameters' types and its result, with no space.
fn signatures(text: &str) -> BTreeMap<String, Signature> {
    let mut found = BTreeMap::new();
    let head = "#[unsafe(no_mangle)]\npub extern \"C\" fn ";
    for piece in text.split(head).skip(1) {
        let (name, rest) = piece.split_once('(').expect("a parameter list");
        let (parameters, rest) = rest.split_once(") ->").expect("a result");
        let result = rest.trim_start().chars();
        let result = result.take_while(|c| c.is_alphanumeric()).collect();
        let types = parameters.split(',').filter_map(|p| p.split_once(':'));
        let types = types.flat_map(|(_, t)| passed(&without_space(t)));
        found.insert(name.trim().to_string(), (types.collect(), result));
    }
    found
}

/// How a type of an exported function stands in a declaration.
fn passed(rattle: &str) -> Vec<String> {
    let parts: &[&str] = match rattle {
        "u64" => &["u64"],
        "Builder" => &["Builder"],
        "&[u8]" => &["*constu8", "usize"],
        "&mut[u8]" => &["*mutu8", "usize"],
        "&[u8;32]" => &["*const[u8;32]"],
        other => panic!("no rule for {other}"),
    };
    parts.iter().map(|p| p.to_string()).collect()
}

#[test]
fn each_declaration_has_the_parameters_of_the_exported_function() {
    let mut sources = BTreeMap::new();
    for name in names() {
        sources.append(&mut signatures(&source(&format!("{name}_c"))));
    }
    assert_eq!(declared(), sources);
}

/// The structs of a text that are laid out as in C.
fn structs(text: &str) -> BTreeMap<String, Fields> {
    let mut found = BTreeMap::new();
    for piece in text.split("#[repr(C)]").skip(1) {
        let (_, rest) = piece.split_once("pub struct ").expect("a struct");
        let (name, rest) = rest.split_once('{').expect("fields");
        let (body, _) = rest.split_once('}').expect("the last field");
        let lines = body.lines().filter_map(|l| l.trim().strip_prefix("pub "));
        let fields = lines.filter_map(|l| l.trim_end_matches(',').split_once(": "));
        let fields = fields.map(|(name, t)| (name.to_string(), t.to_string()));
        found.insert(name.trim().to_string(), fields.collect());
    }
    found
}

#[test]
fn each_struct_has_the_fields_of_the_one_in_the_source() {
    let mut sources = BTreeMap::new();
    for name in names().chain(["convention", "builder"]) {
        sources.append(&mut structs(&source(name)));
    }
    let mut declared = structs(include_str!("../src/plain.rs"));
    if cfg!(not(feature = "store")) {
        for name in ["OfferAnswer", "StoreAnswer", "EntryAnswer"] {
            assert!(declared.remove(name).is_some(), "{name}");
        }
    }
    assert!(declared.values().all(|fields| !fields.is_empty()));
    assert_eq!(declared, sources);
}
