//! The constants, structs and functions of `include/tvarchula.h` and those of `tvarchula-sys` are the same.

use std::collections::BTreeMap;
use std::fs::read_to_string;
use std::path::{Path, PathBuf};

fn repository() -> PathBuf {
    Path::new(env!("CARGO_MANIFEST_DIR")).join("../..")
}

fn text(name: &str) -> String {
    let path = repository().join(name);
    read_to_string(&path).unwrap_or_else(|error| panic!("{}: {error}", path.display()))
}

/// A number as C or Rust writes it; a truth value counts as C's.
fn number(word: &str) -> Option<i64> {
    if let Ok(truth) = word.parse::<bool>() {
        return Some(truth.into());
    }
    let digits = word.trim_end_matches('u').replace('_', "");
    digits.parse().ok()
}

/// `#define TV_NAME number`, and nothing else but a comment.
fn of_header() -> BTreeMap<String, i64> {
    let header = text("include/tvarchula.h");
    let constant = |line: &str| {
        let (code, _) = line.split_once("/*").unwrap_or((line, ""));
        let words: Vec<&str> = code.split_whitespace().collect();
        let &["#define", name, word] = &words[..] else {
            return None;
        };
        Some((name.to_owned(), number(word)?))
    };
    header.lines().filter_map(constant).collect()
}

/// `pub const TV_NAME: type = number;`
fn of_rust() -> BTreeMap<String, i64> {
    let source = text("rust/tvarchula-sys/src/numbers.rs");
    let constant = |line: &str| {
        let (name, rest) = line.strip_prefix("pub const ")?.split_once(':')?;
        let (_, word) = rest.split_once('=')?;
        let word = word.trim().trim_end_matches(';');
        Some((name.to_owned(), number(word)?))
    };
    source.lines().filter_map(constant).collect()
}

#[test]
fn constants() {
    let mut header = of_header();
    let part = |name: &str| header.get(name).expect(name).to_string();
    let parts = ["MAJOR", "MINOR", "PATCH"].map(|name| part(&format!("TV_VERSION_{name}")));
    assert_eq!(parts.join("."), tvarchula_sys::TV_VERSION);
    header.retain(|name, _| !name.starts_with("TV_VERSION"));
    assert!(header.len() >= 20, "{header:?}");
    assert_eq!(header["TV_FIELD_1"], 0);
    assert_eq!(header["TV_FIELD_2"], 1);
    assert_eq!(header, of_rust());
}

/// The parameters of every function, from each `start` to the next `)`: their names and Rust's types.
fn functions(
    source: &str,
    start: &str,
    parameter: fn(&str) -> (String, String),
) -> BTreeMap<String, Vec<(String, String)>> {
    let declared = source.split(start).skip(1);
    let function = |text: &str| {
        let (name, rest) = text.split_once('(')?;
        let name = name.rsplit(' ').next()?.to_owned();
        let (list, _) = rest.split_once(')')?;
        let list = list.split(',').map(str::trim).filter(|p| !p.is_empty());
        Some((name, list.map(parameter).collect()))
    };
    declared.filter_map(function).collect()
}

/// `const uint32_t *name` and so on.
fn of_c(parameter: &str) -> (String, String) {
    let words: Vec<&str> = parameter.split_whitespace().collect();
    let (last, types) = words.split_last().expect("a type and a name");
    let name = last.trim_start_matches('*');
    let pointer = if last.starts_with('*') { "*" } else { "" };
    let kind = match (types, pointer) {
        (["bool"], "") => "bool",
        (["uint32_t"], "") => "u32",
        (["tv_parameters"], "") => "tv_parameters",
        (["size_t"], "") => "usize",
        (["const", "uint32_t"], "*") => "*const u32",
        (["const", "int32_t"], "*") => "*const i32",
        (["uint32_t"], "*") => "*mut u32",
        (["int32_t"], "*") => "*mut i32",
        other => panic!("{other:?}"),
    };
    (name.to_owned(), kind.to_owned())
}

/// `name: type`, where three types have names of their own.
fn of_sys(parameter: &str) -> (String, String) {
    let (name, kind) = parameter.split_once(": ").expect("a name and a type");
    let kind = match kind {
        "Read" => "*const u32",
        "Write" => "*mut u32",
        "Len" => "usize",
        other => other,
    };
    (name.to_owned(), kind.to_owned())
}

#[test]
fn parameters() {
    let header = text("include/tvarchula.h");
    let header = functions(&header, "\nTV_MUST_USE ", of_c);
    let sys = functions(
        &text("rust/tvarchula-sys/src/functions.rs"),
        "pub fn ",
        of_sys,
    );
    assert_eq!(header.len(), 10);
    assert_eq!(header, sys);
    let without_field = header.iter().filter(|(_, list)| list[0].0 != "field");
    let without_field: Vec<_> = without_field.map(|(name, _)| &name[..]).collect();
    assert_eq!(without_field, ["tv_fill_roots"]);
    let of_record = |list: &[(String, String)]| list.iter().any(|(name, _)| name == "parameters");
    let without_record = header.iter().filter(|(_, list)| !of_record(list));
    let without_record: Vec<_> = without_record.map(|(name, _)| &name[..]).collect();
    assert_eq!(without_record, ["tv_read_clearance"]);
}

/// The numbers of a struct in the header, in their order; another struct in it counts as its numbers.
fn fields(header: &str, name: &str) -> Vec<String> {
    let (before, _) = header.split_once(&format!("}} {name};")).expect(name);
    let (_, body) = before.rsplit_once("typedef struct {").expect(name);
    let lines = body.split(';').map(str::trim);
    lines
        .flat_map(|line| match line.split_once(' ') {
            Some(("uint32_t", names)) => names.split(", ").map(str::to_owned).collect(),
            Some((inner, _)) => fields(header, inner),
            None => Vec::new(),
        })
        .collect()
}

#[test]
fn structs() {
    use std::mem::{offset_of, size_of};
    use tvarchula_sys::{tv_answer, tv_parameters, tv_reading};
    let header = text("include/tvarchula.h");
    let names = ["number", "first", "second", "kind", "amount"];
    assert_eq!(fields(&header, "tv_answer"), names[..3]);
    assert_eq!(fields(&header, "tv_reading"), names);
    assert_eq!(fields(&header, "tv_parameters"), ["depth", "rate", "k0"]);
    let parameters = [
        offset_of!(tv_parameters, depth),
        offset_of!(tv_parameters, rate),
        offset_of!(tv_parameters, k0),
        size_of::<tv_parameters>(),
    ];
    assert_eq!(parameters, [0, 4, 8, 12]);
    let answer = [
        offset_of!(tv_answer, number),
        offset_of!(tv_answer, first),
        offset_of!(tv_answer, second),
        size_of::<tv_answer>(),
    ];
    assert_eq!(answer, [0, 4, 8, 12]);
    let reading = [
        offset_of!(tv_reading, answer),
        offset_of!(tv_reading, kind),
        offset_of!(tv_reading, amount),
        size_of::<tv_reading>(),
    ];
    assert_eq!(reading, [0, 12, 16, 20]);
}

/// Every crate that a caller uses, and the header, have one version.
#[test]
fn versions() {
    let line = format!("version = \"{}\"", tvarchula_sys::TV_VERSION);
    for name in ["tvarchula", "tvarchula-sys"] {
        let manifest = text(&format!("rust/{name}/Cargo.toml"));
        assert!(manifest.lines().any(|found| found == line), "{name}");
    }
    let string = format!("\"{}\"", tvarchula_sys::TV_VERSION);
    let header = text("include/tvarchula.h");
    let mut lines = header.lines();
    let found = lines.find_map(|line| line.strip_prefix("#define TV_VERSION "));
    assert_eq!(found, Some(&string[..]));
}
