//! Takes the functions of the Rust out of its given files, by the names of their items, into the build's own folder.
//! With the feature `linked`, also says where libnas.a is, and declares its functions as include/nas.h does.

use std::path::{Path, PathBuf};
use std::{env, fs, process};

/// What is taken from each file: an item from its head to its end, with the derives above it. Its visibility is not part of a
/// head. A further item is a further word here.
const TAKEN: [(&str, &[&str]); 3] = [
    (
        "codec.rs",
        &[
            "enum NasError",
            "struct IeName",
            "impl IeName",
            "enum IeFault",
            "type Result",
            "struct DecodeOptions",
            "impl DecodeOptions",
            "struct Reading",
            "impl<'b> Reading<'b>",
            "type Faults",
            "fn too_short",
            "trait Reader",
            "impl<'a> Reader<'a> for &'a [u8]",
        ],
    ),
    (
        "unknown_ie.rs",
        &[
            "struct UnknownIe",
            "struct UnknownIes",
            "impl UnknownIes",
            "struct UnknownIesIter",
            "impl<'a> Iterator for UnknownIesIter<'a>",
            "enum Placed",
            "struct IeOrder",
            "impl IeOrder",
            "enum IgnoredIeReason",
            "fn generic_ie_length",
        ],
    ),
    (
        "message_macros.rs",
        &[
            "type IeiTable",
            "type IeiIndex",
            "const NO_IE",
            "const fn iei_index",
            "fn place_of",
            "fn decode_mandatory_ie",
            "fn kept_so_far",
            "type DecodeKnown",
            "fn decode_optional_ies",
            "fn encode_optional_ies",
            "fn optional_ie_order_findings",
        ],
    ),
];

/// The arms that are taken from the macro `nas_message`: how an element is written behind its IEI, and the half octets.
const ARMS: [&str; 3] = ["(@encode_opt ", "(@encode_mand ", "(@decode_mand "];

fn main() {
    let root = PathBuf::from(env::var("CARGO_MANIFEST_DIR").unwrap()).join("..");
    println!("cargo:rerun-if-env-changed=NAS_RUST_SRC");
    let given = match env::var("NAS_RUST_SRC") {
        Ok(path) => PathBuf::from(path),
        Err(_) => root.join("../shared/docs/src"),
    };
    let out = PathBuf::from(env::var("OUT_DIR").unwrap());
    for (file, heads) in TAKEN {
        let text = source(&given, file);
        let mut items: Vec<String> = heads.iter().map(|head| item(&text, head, file)).collect();
        if file == "message_macros.rs" {
            items.push(format!("macro_rules! nas_message {{\n{}}}\n", ARMS.map(|head| arms(&text, head)).concat()));
        }
        fs::write(out.join(file), items.join("\n")).unwrap();
    }
    if env::var("CARGO_FEATURE_LINKED").is_ok() {
        println!("cargo:rerun-if-env-changed=NAS_LIB");
        link(&env::var("NAS_LIB").map_or(root.join("crates/nas/out/libnas.a"), PathBuf::from));
        let header = root.join("include/nas.h");
        println!("cargo:rerun-if-changed={}", header.display());
        let text = fs::read_to_string(&header).unwrap_or_else(|error| fail(format!("{}: {error}", header.display())));
        let (declared, functions) = functions(&text);
        fs::write(out.join("declared.rs"), declared).unwrap();
        fs::write(out.join("functions.rs"), functions).unwrap();
    }
}

fn fail(message: String) -> ! {
    eprintln!("{message}");
    process::exit(1)
}

/// The text of a file of the Rust, from the folder that holds its INDEX.md.
fn source(given: &Path, file: &str) -> String {
    let path = given.join("src/common").join(file);
    println!("cargo:rerun-if-changed={}", path.display());
    fs::read_to_string(&path).unwrap_or_else(|error| {
        fail(format!(
            "The Rust that is compared with is not at {}: {error}.\n\
             Put its folder (with INDEX.md and src/) at ../shared/docs/src, seen from the repository, or name it in NAS_RUST_SRC.",
            path.display()
        ))
    })
}

/// The item that begins with `head`. The files are formatted: an item begins and ends in the first column.
fn item(text: &str, head: &str, file: &str) -> String {
    let lines: Vec<&str> = text.lines().collect();
    let Some(at) = lines.iter().position(|line| begins(line, head)) else {
        fail(format!("{file} has no item `{head}`: is it the edition that INDEX.md names?"))
    };
    let first = (0..at).rev().take_while(|&k| lines[k].starts_with("#[")).last().unwrap_or(at);
    let last = match lines[at].ends_with(';') {
        true => at,
        false => (at..lines.len()).find(|&k| lines[k] == "}").unwrap(),
    };
    let mut kept = Vec::new();
    let mut in_text = false;
    for line in &lines[first..=last] {
        match line.trim() {
            // The texts of the errors are another crate's work: its derive and its attributes are left out.
            "#[source]" => continue,
            word if in_text || word.starts_with("#[error(") => in_text = !word.ends_with(")]"),
            word if word.starts_with("#[derive(Error, Debug, ") => {
                kept.push(line.replace("Error, Debug, ", ""));
            }
            _ => kept.push(line.to_string()),
        }
    }
    kept.join("\n") + "\n"
}

/// All arms of the macro that begin with `head`. An arm begins and ends in the fifth column.
fn arms(text: &str, head: &str) -> String {
    let lines: Vec<&str> = text.lines().collect();
    let begins = |k: &usize| lines[*k].strip_prefix("    ").is_some_and(|line| line.starts_with(head));
    let arm = |k: usize| lines[k..].iter().take(1 + end_of_arm(&lines[k..])).map(|line| format!("{line}\n")).collect();
    let found: Vec<String> = (0..lines.len()).filter(begins).map(arm).collect();
    if found.is_empty() {
        fail(format!("message_macros.rs has no arm `{head}`: is it the edition that INDEX.md names?"));
    }
    found.concat()
}

fn end_of_arm(lines: &[&str]) -> usize {
    lines.iter().position(|line| matches!(*line, "    };" | "    }};")).unwrap()
}

fn begins(line: &str, head: &str) -> bool {
    let line = line.strip_prefix("pub(crate) ").or(line.strip_prefix("pub ")).unwrap_or(line);
    line.strip_prefix(head).is_some_and(|rest| !rest.starts_with(|c: char| c.is_alphanumeric() || c == '_'))
}

fn link(library: &Path) {
    println!("cargo:rerun-if-changed={}", library.display());
    let (Some(folder), Some(name), true) = (library.parent(), library.file_name(), library.exists()) else {
        fail(format!(
            "{} is not there: `rt lib` in crates/nas makes libnas.a, and compare/run calls that.",
            library.display()
        ))
    };
    println!("cargo:rustc-link-search=native={}", folder.display());
    println!("cargo:rustc-link-lib=static:+verbatim={}", name.display());
}

/// The family of a function, as a feature; none where every library has it.
fn family(name: &str) -> Option<&'static str> {
    match name {
        "nas_set" | "nas_clear" => Some("LINKED_EDITING"),
        "nas_write" | "nas_write_by" => Some("LINKED_WRITING"),
        "nas_check_mandatory_table" => None,
        "nas_findings" => Some("LINKED_FINDINGS"),
        name if name.contains("mandatory") => Some("LINKED_MANDATORY"),
        _ => None,
    }
}

/// The functions of the header: their declarations, and, for the program hostile, what each parameter takes and how each is
/// called. What cannot be called so is an error, so that no function is forgotten.
fn functions(header: &str) -> (String, String) {
    let lines = without_comments(header);
    let text: String = lines.lines().filter(|line| !line.trim_start().starts_with('#')).collect::<Vec<_>>().join(" ");
    let (mut declared, mut calls, mut list, mut left_out) =
        (String::new(), String::new(), String::new(), String::new());
    for statement in text.split(';').filter(|statement| statement.contains("nas_")) {
        let statement = statement.split_whitespace().collect::<Vec<_>>().join(" ");
        let (name, parameters) = statement
            .rsplit_once("uint32_t nas_")
            .and_then(|(_, rest)| rest.strip_suffix(')')?.split_once('('))
            .unwrap_or_else(|| fail(format!("include/nas.h: no function that returns uint32_t: {statement}")));
        let name = format!("nas_{name}");
        if family(&name).is_some_and(|family| env::var(format!("CARGO_FEATURE_{family}")).is_err()) {
            left_out += &format!("{name:?}, ");
            continue;
        }
        let (mut types, mut kinds, mut given) = (Vec::new(), Vec::new(), Vec::new());
        let mut words = parameters.split(", ").peekable();
        while let Some(word) = words.next() {
            let k = kinds.len();
            let parameter = parameter(word)
                .unwrap_or_else(|| fail(format!("include/nas.h: {name} has a parameter of another kind: {word}")));
            match parameter {
                Parameter::Pointer { name: of, constant, bits } => {
                    if words.next() != Some(&format!("size_t {of}_len")) {
                        fail(format!("include/nas.h: {name} has no length behind {of}"));
                    }
                    let pointer = if constant { "*const" } else { "*mut" };
                    types.extend([format!("{of}: {pointer} u{bits}"), format!("{of}_len: usize")]);
                    given.extend([format!("a[{k}].pointer.cast()"), format!("a[{k}].length")]);
                    kinds.push(format!("({of:?}, Kind::Slice {{ width: {}, changes: {} }})", bits / 8, !constant));
                }
                Parameter::Array { name: of, bits, count } => {
                    types.push(format!("{of}: *mut u{bits}"));
                    given.push(format!("a[{k}].pointer.cast()"));
                    kinds.push(format!("({of:?}, Kind::Array {{ width: {}, count: {count} }})", bits / 8));
                }
                Parameter::Number { name: of, kind } => {
                    types.push(format!("{of}: {kind}"));
                    given.push(format!("a[{k}].number as {kind}"));
                    kinds.push(format!("({of:?}, Kind::Number)"));
                }
            }
        }
        declared += &format!("    pub fn {name}({}) -> u32;\n", types.join(", "));
        calls += &format!(
            "unsafe fn call_{name}(a: &[Argument]) -> u32 {{\n    unsafe {{ {name}({}) }}\n}}\n",
            given.join(", ")
        );
        list +=
            &format!("    Function {{ name: {name:?}, parameters: &[{}], call: call_{name} }},\n", kinds.join(", "));
    }
    (
        format!("unsafe extern \"C\" {{\n{declared}}}\n"),
        format!("{calls}static FUNCTIONS: &[Function] = &[\n{list}];\nstatic LEFT_OUT: &[&str] = &[{left_out}];\n"),
    )
}

enum Parameter<'a> {
    Pointer { name: &'a str, constant: bool, bits: usize },
    Array { name: &'a str, bits: usize, count: usize },
    Number { name: &'a str, kind: &'static str },
}

fn parameter(word: &str) -> Option<Parameter<'_>> {
    let (constant, rest) = word.strip_prefix("const ").map_or((false, word), |rest| (true, rest));
    let (kind, name) = rest.split_once(' ')?;
    let bits = match kind {
        "uint8_t" => 8,
        "uint32_t" => 32,
        "uint64_t" => 64,
        "size_t" => 0,
        _ => return None,
    };
    if let Some(name) = name.strip_prefix('*') {
        return (bits == 8 || bits == 32).then_some(Parameter::Pointer { name, constant, bits });
    }
    if let Some((name, count)) = name.strip_suffix(']').and_then(|name| name.split_once('[')) {
        return (!constant && bits > 0).then_some(Parameter::Array { name, bits, count: count.parse().ok()? });
    }
    let kind = match bits {
        8 => "u8",
        32 => "u32",
        64 => "u64",
        _ => "usize",
    };
    Some(Parameter::Number { name, kind })
}

fn without_comments(text: &str) -> String {
    let mut kept = String::new();
    let mut rest = text;
    while let Some((before, after)) = rest.split_once("/*") {
        kept += before;
        rest = after.split_once("*/").map_or("", |(_, after)| after);
    }
    kept + rest
}
