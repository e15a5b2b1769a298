//! What the wrapper declares as `extern "C"` is what the crates export: the same functions, and for each the same parameters
//! in the same order, under the same names and of the same widths, and the same result. Its sizes and modes are the crates'.

use graftspindle::{sizes, Mode};
use graftspindle_checks::sources::{files, root, text};
use std::collections::BTreeMap;
use std::fs::read_dir;

/// A parameter's name and type, as Rust declares it across the boundary.
type Parameter = (String, String);

/// The functions by name: their parameters, and their result.
type Functions = BTreeMap<String, (Vec<Parameter>, String)>;

/// Without what stands behind `//`.
fn code(text: &str) -> String {
    text.lines().flat_map(|line| [line.split("//").next().expect("a line"), "\n"]).collect()
}

/// `name(a: T, b: U) -> R`, cut behind the result by one of these: the name, the parameters as written, the result.
fn read_function(text: &str, ends: &[char]) -> (String, Vec<Parameter>, String) {
    let (name, rest) = text.split_once('(').expect("a list of parameters");
    let (parameters, rest) = rest.split_once(')').expect("its end");
    let head = rest.split(ends).next().expect("a result");
    let result = head.trim().strip_prefix("->").unwrap_or("()").split_whitespace().next().unwrap_or("()");
    let parameter = |p: &str| p.split_once(':').map(|(name, kind)| (name.trim().to_string(), kind.trim().to_string()));
    let parameters = parameters.split(',').filter(|p| !p.trim().is_empty());
    let parameters = parameters.map(|p| parameter(p).unwrap_or_else(|| panic!("{name}: {p}")));
    (name.trim().to_string(), parameters.collect(), result.to_string())
}

fn add(all: &mut Functions, (name, parameters, result): (String, Vec<Parameter>, String)) {
    let before = all.insert(name.clone(), (parameters, result));
    assert!(before.is_none(), "{name} stands twice");
}

/// How a parameter of an export crosses: a slice as a pointer and a length.
fn crossing((name, kind): &Parameter) -> Vec<Parameter> {
    let parts: &[(&str, &str)] = match kind.as_str() {
        "u64" => &[("", "u64")],
        "i64" => &[("", "i64")],
        "&mut u64" => &[("", "*mut u64")],
        "&[u8]" => &[("", "*const u8"), ("_length", "usize")],
        "&mut [u8]" => &[("", "*mut u8"), ("_length", "usize")],
        "&mut [u16]" => &[("", "*mut u16"), ("_length", "usize")],
        other => panic!("{name}: it is not said how {other} crosses"),
    };
    parts.iter().map(|(ending, kind)| (format!("{name}{ending}"), kind.to_string())).collect()
}

/// The exports of a source of the crates, as Rust has to declare them.
fn exported(source: &str, all: &mut Functions) {
    let source = code(source);
    let exports: Vec<&str> = source.split("pub extern \"C\" fn ").collect();
    assert_eq!(
        source.matches("#[unsafe(no_mangle)]").count(),
        exports.len() - 1,
        "each export is marked, and nothing else"
    );
    for export in &exports[1..] {
        let (name, parameters, result) = read_function(export, &['{']);
        add(all, (name, parameters.iter().flat_map(crossing).collect(), result));
    }
}

/// The functions of the crates that Rust calls, the static libraries of crates.txt; no other crate exports one.
fn exports() -> Functions {
    let mut all = Functions::new();
    let lists = text(&root().join("crates.txt"));
    let is_static = |name: &str| lists.lines().any(|line| line.starts_with(&format!("{name} staticlib:")));
    for entry in read_dir(root().join("crates")).expect("the crates") {
        let path = entry.expect("an entry").path();
        let before = all.len();
        files(&path.join("src"), ".rt").iter().for_each(|file| exported(&text(file), &mut all));
        let name = path.file_name().expect("a name").to_string_lossy().into_owned();
        assert_eq!(is_static(&name), all.len() > before, "{name}: a static library exports, and nothing else does");
    }
    all
}

/// What the `extern "C"` blocks of a Rust source declare.
fn declared(source: &str, all: &mut Functions) {
    for block in code(source).split("extern \"C\" {").skip(1) {
        let (block, _) = block.split_once('}').expect("the block's end");
        block.split("fn ").skip(1).for_each(|text| add(all, read_function(text, &[';'])));
    }
}

fn declarations() -> Functions {
    let mut all = Functions::new();
    for file in files(&root().join("host/graftspindle/src"), ".rs") {
        declared(&text(&file), &mut all);
    }
    all
}

#[test]
fn each_declaration_is_its_export() {
    let (exports, declarations) = (exports(), declarations());
    let names = |functions: &Functions| functions.keys().cloned().collect::<Vec<String>>();
    assert_eq!(names(&declarations), names(&exports), "declared in Rust, and exported by the crates");
    for (name, export) in &exports {
        assert_eq!(&declarations[name], export, "{name}: declared in Rust, and exported by the crates");
    }
    assert!(exports.len() >= 10, "{} exports", exports.len());
}

/// That the comparison tells apart: each of these changes of a declaration is another function.
#[test]
fn a_changed_declaration_is_told_apart() {
    let export = "#[unsafe(no_mangle)]\npub extern \"C\" fn f(\n    mode: u64,\n    offset: i64,\n    a: &[u8],\n    b: &mut [u8],\n    c: &mut [u16],\n    n: &mut u64,\n) -> u64\n    ensures { result }\n{";
    let right = "extern \"C\" { fn f(mode: u64, offset: i64, a: *const u8, a_length: usize, b: *mut u8, b_length: usize, c: *mut u16, c_length: usize, n: *mut u64) -> u64; }";
    let (mut exports, mut same) = (Functions::new(), Functions::new());
    exported(export, &mut exports);
    declared(right, &mut same);
    assert_eq!(same, exports);
    let changes = [
        ("fn f", "fn g"),
        ("mode: u64, offset: i64", "mode: u32, offset: i64"),
        ("mode: u64, offset: i64", "offset: i64, mode: u64"),
        ("offset: i64", "offset: u64"),
        ("offset: i64", "offset: i32"),
        ("offset: i64, ", ""),
        ("a: *const u8, a_length: usize", "a_length: usize, a: *const u8"),
        (
            "a: *const u8, a_length: usize, b: *mut u8, b_length: usize",
            "b: *mut u8, b_length: usize, a: *const u8, a_length: usize",
        ),
        ("b: *mut u8", "b: *const u8"),
        ("c: *mut u16", "c: *mut u8"),
        ("c: *mut u16", "c: *const u16"),
        ("c: *mut u16, c_length: usize", "c_length: usize, c: *mut u16"),
        ("c: *mut u16, c_length: usize, ", ""),
        ("c_length: usize, n: *mut u64", "n: *mut u64, c_length: usize"),
        (", n: *mut u64", ""),
        ("n: *mut u64", "m: *mut u64"),
        ("-> u64;", "-> u32;"),
        (" -> u64;", ";"),
    ];
    for (from, to) in changes {
        let mut changed = Functions::new();
        declared(&right.replacen(from, to, 1), &mut changed);
        assert_ne!(changed, exports, "{from} as {to}");
    }
}

/// A function that calls an export, and whether it asks before it which form of the boundary is linked.
fn calls(source: &str) -> Vec<(String, bool)> {
    let source = code(source);
    let functions = source.split("\npub fn ").skip(1).filter_map(|function| function.split_once("unsafe {"));
    let name = |head: &str| head.split('(').next().expect("a name").to_string();
    functions.map(|(head, _)| (name(head), head.contains("revision::asked();"))).collect()
}

#[test]
fn each_call_asks_for_the_revision_first() {
    let raw = root().join("host/graftspindle/src");
    let all: Vec<(String, bool)> = files(&raw, ".rs").iter().flat_map(|file| calls(&text(file))).collect();
    let without: Vec<&str> = all.iter().filter(|(_, asks)| !asks).map(|(name, _)| name.as_str()).collect();
    assert_eq!(without, ["revision"], "it is what is asked");
    assert_eq!(all.len(), exports().len(), "{all:?}");
}

/// The number that a constant of the crate `sizes` has.
fn size(name: &str) -> u64 {
    let source = text(&root().join("crates/sizes/src/lib.rt"));
    let head = format!("pub const {name}: ");
    let line =
        source.lines().find_map(|line| line.strip_prefix(&head)).unwrap_or_else(|| panic!("{name}: no such size"));
    let (_, number) = line.trim_end_matches(';').split_once(" = ").expect("a constant");
    number.parse().unwrap_or_else(|_| panic!("{name}: {number}"))
}

#[test]
fn sizes_and_modes_are_the_crates() {
    let here = [
        ("HEADER", sizes::HEADER),
        ("LINE", sizes::LINE),
        ("SLOT", sizes::SLOT),
        ("SLOT_END", sizes::RECORD),
        ("STAMP", sizes::STAMP),
        ("TIME", sizes::TIME),
    ];
    for (name, bytes) in here {
        assert_eq!(bytes as u64, size(name), "{name}");
    }
    assert_eq!([Mode::Incremental.number(), Mode::Full.number()], [size("INCREMENTAL"), size("FULL")]);
}
