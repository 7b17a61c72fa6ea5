//! Expands thiserror's `#[derive(Error)]` to the impls that it generates.

use super::fault::Fault;
use super::ghosts::without_derive;
use super::layout::{width, WIDTH};
use super::source::Source;

/// Expands `Error` in a derive: the messages, and a conversion for each `#[from]`.
pub fn rewrite(source: &mut Source) -> Result<(), Fault> {
    for derive in without_derive(source, "Error")? {
        let is_item = |it: &usize| source.is_word(*it, "enum") || source.is_word(*it, "struct");
        let item = (derive..source.tokens.len()).find(is_item);
        let item = item.ok_or_else(|| source.fault(derive, "Error is derived for neither an enum nor a struct"))?;
        if source.at(item) == "struct" {
            message_of_struct(source, derive, item)?;
        } else {
            messages_of_enum(source, item)?;
        }
    }
    for at in source.words("use") {
        if source.is_at(at, &["use", "thiserror", "::", "Error", ";"]) {
            let end = source.find(at, &[";"])?;
            source.erase(at, end + 1);
        }
    }
    Ok(())
}

/// Expands a struct without fields, with its message above it.
fn message_of_struct(source: &mut Source, derive: usize, item: usize) -> Result<(), Fault> {
    let name = source.at(source.after(item)).to_string();
    let end = source.after(source.after(item));
    let is_message = |it: &usize| source.at(*it) == "#" && source.is_at(*it, &["#", "[", "error", "("]);
    let message = match (derive..item).find(is_message) {
        Some(message) if source.at(end) == ";" => message,
        _ => return Err(source.fault(item, format!("the struct {name} has no message"))),
    };
    let text = message_at(source, message)?;
    let written = impls(&name, &[format!("        f.write_str({text})\n")], "");
    source.tokens[end].text += &written;
    Ok(())
}

/// Expands an enum, with a message above each variant.
fn messages_of_enum(source: &mut Source, item: usize) -> Result<(), Fault> {
    let name = source.at(source.after(item)).to_string();
    let open = source.find(item, &["{"])?;
    let end = source.closing(open)?;
    let (mut arms, mut conversions) = (Vec::new(), String::new());
    let mut at = source.after(open);
    while at < end {
        if !source.is_at(at, &["#", "[", "error", "("]) {
            return Err(source.fault(at, format!("a variant of {name} without a message")));
        }
        let text = message_at(source, at)?;
        let variant = source.next(at);
        let qualified = format!("{name}::{}", source.at(variant));
        let next = source.after(variant);
        let mut pattern = qualified.clone();
        if source.at(next) == "(" {
            let close = source.closing(next)?;
            if let Some(kind) = source.past(next, &["(", "#", "[", "from", "]"]) {
                let begin = source.after(next);
                let kind = source.next(kind);
                let of = source.code(kind, close);
                conversions += &conversion(&name, &qualified, &of);
                source.clear(begin, kind);
            }
            if source.code(next + 1, close).contains(',') {
                return Err(source.fault(variant, "a message with more than one value"));
            }
            pattern += if text.contains("{0") { "(it)" } else { "(_)" };
        } else if source.at(next) == "{" {
            return Err(source.fault(variant, "a message with named values"));
        }
        arms.push(arm(&pattern, &text.replace("{0", "{it")));
        at = source.find(next, &[",", "}"])?;
        at = if source.at(at) == "," { source.after(at) } else { at };
    }
    let arms = [vec!["        match self {\n".to_string()], arms, vec!["        }\n".to_string()]].concat();
    source.tokens[end].text += &impls(&name, &arms, &conversions);
    Ok(())
}

/// Removes `#[error("..")]` and returns its text.
fn message_at(source: &mut Source, at: usize) -> Result<String, Fault> {
    let open = source.find(at + 1, &["["])?;
    let close = source.closing(open)?;
    let paren = source.find(open + 1, &["("])?;
    let text = source.code(paren + 1, source.closing(paren)?);
    if !text.starts_with('"') || !text.ends_with('"') {
        return Err(source.fault(at, "a message that isn't just a string"));
    }
    source.erase_line(at, close + 1);
    Ok(text)
}

fn arm(pattern: &str, text: &str) -> String {
    let call = if text.contains('{') { format!("write!(f, {text})") } else { format!("f.write_str({text})") };
    let line = format!("            {pattern} => {call},");
    if width(&line) <= WIDTH {
        return line + "\n";
    }
    format!("            {pattern} => {{\n                {call}\n            }}\n")
}

fn impls(name: &str, body: &[String], conversions: &str) -> String {
    format!(
        "

impl core::fmt::Display for {name} {{
    fn fmt(&self, f: &mut core::fmt::Formatter<'_>) -> core::fmt::Result {{
{}    }}
}}

impl std::error::Error for {name} {{}}{conversions}",
        body.concat()
    )
}

fn conversion(name: &str, variant: &str, of: &str) -> String {
    format!(
        "

impl From<{of}> for {name} {{
    fn from(it: {of}) -> {name} {{
        {variant}(it)
    }}
}}"
    )
}
