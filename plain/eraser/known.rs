//! The constructs that are known in the sources. All others are refused.

use super::fault::Fault;
use super::source::Source;
use super::token::Kind;

/// Types with a `drop` that only frees what their fields own, which Rust does anyway.
pub const FREED_BY_ITS_FIELDS: &[&str] = &["Card"];

/// Third-party crates for which the kit has modules.
pub const LIBRARIES: &[&str] = &["arrayvec", "bitflags", "byteorder", "clap", "hex", "rtrb", "thiserror"];

/// Names and methods that are in Rattle's prelude but not in Rust's, each with its module in the kit and what to import
/// from that module.
pub const PRELUDE: &[(&str, &str, &str)] = &[
    ("Box", "boxed", "Box"),
    ("HostRuntime", "host", "HostRuntime"),
    ("Print", "host", "Print"),
    ("crate::println_on", "host", "Print"),
    ("replace_in", "string", "ReplaceIn"),
    ("String", "string", "String"),
    ("collect_in", "vec", "CollectIn"),
    ("to_vec_in", "vec", "ToVec"),
    ("Vec", "vec", "Vec"),
];

/// Rattle's keywords, which no plain source contains.
const WORDS: &[&str] =
    &["ghost", "requires", "ensures", "decreases", "lemma", "assume", "proof", "cycle", "tactic", "rattlefmt"];

/// Macros of Rust, of the kit and of the sources themselves.
const MACROS: &[&str] = &[
    "assert",
    "assert_eq",
    "bitflag_items",
    "entry",
    "format",
    "format_args",
    "macro_rules",
    "matches",
    "panic",
    "println",
    "prove",
    "run",
    "unreachable",
    "value_parser",
    "vec",
    "write",
    "writeln",
    "bitflags",
    "assert_ne",
    "debug_assert",
];

/// Attributes that are kept or rewritten.
const ATTRIBUTES: &[&str] =
    &["allow", "cfg", "default", "derive", "error", "from", "inline", "must_use", "repr", "rustfmt", "test", "unsafe"];

/// Traits that Rust derives, and thiserror's `Error`.
const DERIVES: &[&str] =
    &["Clone", "Copy", "Debug", "Default", "Eq", "Error", "Hash", "Ord", "PartialEq", "PartialOrd"];

/// Paths in Rattle's libraries that the kit provides, without `std::`.
pub const PATHS: &[&str] = &[
    "alloc::AllocError",
    "alloc::AllocFailed",
    "alloc::AllocGlobal",
    "alloc::Allocator",
    "alloc::Global",
    "arrayvec::ArrayVec",
    "bitflags::Flag",
    "bitflags::Flags",
    "bitflags::bitflag_items",
    "byteorder::ByteOrder",
    "byteorder::LittleEndian",
    "clap",
    "collections::BTreeMap",
    "collections::BTreeSet",
    "collections::VecDeque",
    "convert::AsStr",
    "env",
    "fmt",
    "fs",
    "hex::FromHexError",
    "hex::decode",
    "hex::encode_to_slice",
    "hint::spin_loop",
    "io",
    "mem",
    "process",
    "rtrb",
    "simd::prelude::*",
    "str",
    "sync",
    "test::Fail",
    "thread",
];

/// Refuses constructs that no rewrite knows, after everything that only a proof reads has been erased.
pub fn check(source: &Source) -> Result<(), Fault> {
    if let Some(at) = WORDS.iter().flat_map(|it| source.words(it)).min() {
        return Err(source.fault(at, format!("{} in an unknown form", source.at(at))));
    }
    for at in 0..source.tokens.len() {
        let it = &source.tokens[at];
        match it.kind {
            Kind::Word if source.at(at + 1) == "!" && is_call(source, at) && !MACROS.contains(&it.text.as_str()) => {
                return Err(source.fault(at, format!("the macro {}! isn't known", it.text)));
            }
            Kind::Sign | Kind::Word if !it.text.is_ascii() => {
                return Err(source.fault(at, format!("{} in code", it.text)));
            }
            Kind::Sign if it.text == "#" => attribute(source, at)?,
            _ => {}
        }
    }
    Ok(())
}

/// Whether a word followed by `!` is a macro call.
fn is_call(source: &Source, at: usize) -> bool {
    let next = source.after(source.after(at));
    ["(", "[", "{"].contains(&source.at(next)) || source.at(at) == "macro_rules"
}

fn attribute(source: &Source, at: usize) -> Result<(), Fault> {
    let open = match source.past(at, &["#", "["]) {
        Some(past) => past - 1,
        None => return Err(source.fault(at, "an attribute of a whole file, or # alone")),
    };
    let name = source.after(open);
    if !ATTRIBUTES.contains(&source.at(name)) {
        return Err(source.fault(at, format!("the attribute {} isn't known", source.at(name))));
    }
    if source.at(name) == "derive" {
        let text = source.code(name + 1, source.closing(open)?);
        let names = text.trim_matches(|it| it == '(' || it == ')').split(',').map(str::trim);
        for derived in names.filter(|it| !it.is_empty()) {
            if !DERIVES.contains(&derived) {
                return Err(source.fault(at, format!("the derive of {derived} isn't known")));
            }
        }
    }
    Ok(())
}
