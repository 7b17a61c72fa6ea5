//! Rewrites paths: all crates become modules of one, and the kit replaces Rattle's libraries.

use super::fault::Fault;
use super::known;
use super::source::Source;
use super::token::{tokens, Kind, Token};
use std::collections::BTreeMap;

/// Rewrites the paths in a source of a crate with these libraries.
pub fn rewrite(source: &mut Source, crate_name: &str, libraries: &[String]) {
    for at in starts(source) {
        let text = source.at(at).to_string();
        let written = match text.as_str() {
            "crate" => format!("crate::{crate_name}"),
            "std" | "core" => "crate::kit".to_string(),
            // (`faults` removes its import)
            "thiserror" => continue,
            _ if known::LIBRARIES.contains(&text.as_str()) => format!("crate::kit::{text}"),
            _ if libraries.contains(&text) => format!("crate::{text}"),
            _ => continue,
        };
        source.tokens[at].text = written;
    }
}

/// Returns the tokens at which a path of several names starts.
fn starts(source: &Source) -> Vec<usize> {
    let is_start = |at: &usize| {
        let at = *at;
        source.at(at + 1) == "::" && matches!(source.tokens[at].kind, Kind::Word) && source.text_before(at) != "::"
    };
    (0..source.tokens.len()).filter(is_start).collect()
}

/// Refuses a path in Rattle's libraries that the kit isn't known to provide.
pub fn check(source: &Source) -> Result<(), Fault> {
    for at in starts(source) {
        let first = source.at(at);
        if first != "std" && first != "core" && !known::LIBRARIES.contains(&first) {
            continue;
        }
        for path in paths(source, at) {
            let of_rust = path.strip_prefix("core::").unwrap_or(&path);
            let of_rust = of_rust.strip_prefix("std::").unwrap_or(of_rust);
            let is_known = known::PATHS.iter().any(|it| of_rust == *it || of_rust.starts_with(&format!("{it}::")));
            if !is_known && first != "thiserror" {
                return Err(source.fault(at, format!("the kit isn't known to have {path}")));
            }
        }
    }
    Ok(())
}

/// Returns the full paths that start at a token, including those in a braced list.
fn paths(source: &Source, at: usize) -> Vec<String> {
    let mut path = source.at(at).to_string();
    let mut at = at;
    while source.is_at(at + 1, &["::"]) {
        at = source.after(source.after(at));
        match source.at(at) {
            "{" => return list(source, at, &path),
            "<" => break,
            name => path += &format!("::{name}"),
        }
    }
    vec![path.trim_end_matches("::self").to_string()]
}

fn list(source: &Source, open: usize, front: &str) -> Vec<String> {
    let end = source.closing(open).unwrap_or(open);
    let mut found = Vec::new();
    let mut at = source.after(open);
    while at < end {
        for path in paths(source, at) {
            let path = format!("{front}::{path}");
            found.push(path.trim_end_matches("::self").to_string());
        }
        let comma = source.find(at, &[",", "}"]).unwrap_or(end);
        at = if source.at(comma) == "," { source.after(comma) } else { end };
    }
    found
}

/// Returns imports for what Rattle's prelude provides and Rust's doesn't, if this source uses it.
pub fn prelude(source: &Source) -> Vec<String> {
    let mut modules: BTreeMap<&str, Vec<&str>> = BTreeMap::new();
    for (name, module, import) in known::PRELUDE {
        let imports = modules.entry(module).or_default();
        if is_used(source, name) && !imports.contains(import) {
            imports.push(import);
        }
    }
    let written = modules.iter().filter_map(|(module, imports)| match imports.as_slice() {
        [] => None,
        [one] => Some(format!("crate::kit::{module}::{one}")),
        more => Some(format!("crate::kit::{module}::{{{}}}", more.join(", "))),
    });
    written.collect()
}

/// Whether a source contains this word. A text that a rewrite wrote may contain several words.
fn is_used(source: &Source, word: &str) -> bool {
    let written = |it: &Token| tokens("", &it.text).unwrap_or_default().iter().any(|it| it.text == word);
    let is_in = |it: &Token| it.text.contains(word) && (it.text == word || written(it));
    !source.words(word).is_empty() || source.tokens.iter().any(|it| matches!(it.kind, Kind::Written) && is_in(it))
}
