//! Sorts a file's imports in rustfmt's order.

use super::layout::{filled, split, width, WIDTH};
use std::cmp::Ordering;

/// An import: `use path;`.
#[derive(Clone, Debug, PartialEq, Eq)]
struct Use {
    indent: String,
    visibility: String,
    path: String,
}

/// Returns a text with each group of imports sorted, and with these imports added to the file's first group.
pub fn ordered(text: &str, more: &[String]) -> String {
    let lines: Vec<&str> = text.lines().collect();
    let mut found: Vec<String> = Vec::new();
    let mut is_first = true;
    let mut at = 0;
    while at < lines.len() {
        let mut group = Vec::new();
        while let Some((it, past)) = import(&lines, at) {
            group.push(it);
            at = past;
        }
        if group.is_empty() {
            found.push(lines[at].to_string());
            at += 1;
            continue;
        }
        if is_first && group[0].indent.is_empty() {
            group.extend(more.iter().map(|it| of(it)));
            is_first = false;
        }
        found.extend(laid_out(group));
    }
    if is_first && !more.is_empty() {
        let head = found.iter().take_while(|it| it.starts_with("//!") || it.starts_with("#!")).count();
        let mut group = laid_out(more.iter().map(|it| of(it)).collect());
        // (an empty line already separates the head from what follows)
        group.insert(if head > 0 { 0 } else { group.len() }, String::new());
        found.splice(head..head, group);
    }
    found.join("\n") + "\n"
}

fn of(path: &str) -> Use {
    Use { indent: String::new(), visibility: String::new(), path: path.to_string() }
}

/// Returns the import that starts at a line, and the line after it.
fn import(lines: &[&str], at: usize) -> Option<(Use, usize)> {
    let first = lines.get(at)?;
    let line = first.trim_start();
    let indent = first[..first.len() - line.len()].to_string();
    let start =
        if line.starts_with("use ") { 0 } else { line.find("use ").filter(|it| line[..*it].starts_with("pub"))? };
    if !["", "pub ", "pub(crate) ", "pub(super) "].contains(&&line[..start]) {
        return None;
    }
    let end = (at..lines.len()).find(|it| lines[*it].ends_with(';'))?;
    let whole: Vec<&str> = lines[at..=end].iter().map(|it| it.trim()).collect();
    let path = whole.join(" ")[start + "use ".len()..].trim_end_matches(';').to_string();
    let path = path.replace("{ ", "{").replace(", }", "}").replace(" }", "}");
    Some((Use { indent, visibility: line[..start].to_string(), path }, end + 1))
}

fn laid_out(mut group: Vec<Use>) -> Vec<String> {
    group.sort_by(|a, b| order(&a.path, &b.path));
    group.dedup();
    group.iter().flat_map(lines_of).collect()
}

/// Returns the lines of an import.
fn lines_of(it: &Use) -> Vec<String> {
    let line = format!("{}{}use {};", it.indent, it.visibility, it.path);
    // (rustfmt reserves room for a comma)
    if width(&line) + 2 <= WIDTH || !it.path.ends_with('}') {
        return vec![line];
    }
    let open = match it.path.find('{') {
        Some(open) => open,
        None => return vec![line],
    };
    let names = split(&it.path[open + 1..it.path.len() - 1]);
    let mut found = vec![format!("{}{}use {}", it.indent, it.visibility, &it.path[..=open])];
    found.extend(filled(&names, &format!("{}    ", it.indent)));
    found.push(format!("{}}};", it.indent));
    found
}

/// Compares two paths as rustfmt does: `crate` before other names, and a list last.
fn order(a: &str, b: &str) -> Ordering {
    let (mut a, mut b) = (segments(a), segments(b));
    loop {
        match (a.next(), b.next()) {
            (None, None) => return Ordering::Equal,
            (None, Some(_)) => return Ordering::Less,
            (Some(_), None) => return Ordering::Greater,
            (Some(x), Some(y)) if x == y => {}
            (Some(x), Some(y)) => return rank(x).cmp(&rank(y)).then_with(|| spelt(x).cmp(&spelt(y))),
        }
    }
}

fn segments(path: &str) -> impl Iterator<Item = &str> {
    let list = path.find('{').unwrap_or(path.len());
    let (front, list) = path.split_at(list);
    let names = front.split("::").filter(|it| !it.is_empty());
    names.chain(Some(list).filter(|it| !it.is_empty()))
}

fn rank(segment: &str) -> u8 {
    match segment {
        "self" => 0,
        "super" => 1,
        "crate" => 2,
        "*" => 4,
        _ if segment.starts_with('{') => 5,
        _ => 3,
    }
}

/// Returns a name's sort key: `_` comes before everything else.
fn spelt(name: &str) -> String {
    name.replace('_', "\u{1}")
}

#[cfg(test)]
mod tests {
    use super::*;

    #[test]
    fn a_group_in_order() {
        let text = "//! A.\n\nuse std::b;\npub use crate::c::{\n    D, e,\n};\nuse crate::c;\n\nfn a() {}\n";
        let wanted =
            "//! A.\n\nuse crate::c;\npub use crate::c::{D, e};\nuse crate::kit::f;\nuse std::b;\n\nfn a() {}\n";
        assert_eq!(ordered(text, &["crate::kit::f".to_string()]), wanted);
    }

    #[test]
    fn no_imports() {
        assert_eq!(ordered("//! A.\n\nfn a() {}\n", &["b::c".to_string()]), "//! A.\n\nuse b::c;\n\nfn a() {}\n");
        assert_eq!(ordered("fn a() {}\n", &["b::c".to_string()]), "use b::c;\n\nfn a() {}\n");
    }

    #[test]
    fn names_in_order() {
        assert_eq!(order("crate::nic_device::A", "crate::nic8::A"), Ordering::Less);
        assert_eq!(order("crate::a", "crate::a::b"), Ordering::Less);
        assert_eq!(order("crate::a::{b}", "crate::a::b"), Ordering::Greater);
    }
}
