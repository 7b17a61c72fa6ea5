//! Rewrites the forms that differ in Rust, and the forms that rustc 1.63 doesn't support.

use super::fault::Fault;
use super::layout::indented;
use super::source::Source;
use super::token::{is_in_word, Kind};

/// Rewrites all of these forms.
pub fn rewrite(source: &mut Source) -> Result<(), Fault> {
    formats(source)?;
    clones(source)?;
    chains(source)?;
    lets(source)?;
    ranges(source);
    texts(source);
    methods(source);
    expectations(source);
    traits(source)?;
    handles(source)?;
    allocators(source);
    tests(source)?;
    main(source);
    Ok(())
}

/// Rewrites `fn fmt<W: fmt::Write>(&self, f: &mut fmt::Formatter<W>)`: Rust's formatter has a lifetime instead of a
/// writer.
fn formats(source: &mut Source) -> Result<(), Fault> {
    for at in source.words("fmt") {
        let begin = source.after(at);
        if source.past(at, &["fmt", "<", "W", ":", "fmt", "::", "Write", ">", "("]).is_none() {
            continue;
        }
        let open = source.find(begin, &["("])?;
        source.clear(begin, open);
        for it in open..source.closing(open)? {
            if source.is_word(it, "W") && source.text_before(it) == "<" {
                source.tokens[it].text = "'_".to_string();
            }
        }
    }
    Ok(())
}

/// Rewrites `fn clone(&self) -> Result<Self, AllocError> { Ok(*self) }`: Rust's `clone` can't fail.
fn clones(source: &mut Source) -> Result<(), Fault> {
    for at in source.words("clone") {
        let result = match source.past(at, &["clone", "(", "&", "self", ")", "->", "Result"]) {
            Some(past) if source.text_before(at) == "fn" => past - 1,
            _ => continue,
        };
        let open = source.find(result, &["{"])?;
        let end = source.closing(open)?;
        let body = source.code(open + 1, end);
        let value = match body.strip_prefix("Ok(").and_then(|it| it.strip_suffix(')')) {
            Some(value) if !value.contains('?') => value.to_string(),
            _ => return Err(source.fault(at, "a clone that can fail")),
        };
        source.replace(result, open, "Self ");
        let inside = source.next(open + 1);
        source.replace(inside, source.before(end).map_or(inside, |it| it + 1), value);
    }
    Ok(())
}

/// Rewrites `if a && let P = e { .. }` without an else as nested `if`s; rustc supports it only in edition 2024.
fn chains(source: &mut Source) -> Result<(), Fault> {
    for at in source.words("if") {
        let open = match source.find(at, &["{", "=>", ";", ",", ")", "}"]) {
            Ok(open) if source.at(open) == "{" => open,
            _ => continue,
        };
        let parts = conditions(source, at + 1, open)?;
        if parts.len() == 1 || !parts.iter().any(|it| it.starts_with("let ")) {
            continue;
        }
        let end = source.closing(open)?;
        if source.at(source.after(end)) == "else" {
            return Err(source.fault(at, "a chain of let with an else"));
        }
        let text = nested(&joined(parts), &source.code(open + 1, end), &source.indent(at));
        source.replace(at, end + 1, text);
    }
    Ok(())
}

/// Returns the conditions between two tokens that are joined by `&&` outside brackets.
fn conditions(source: &Source, begin: usize, end: usize) -> Result<Vec<String>, Fault> {
    let mut parts = Vec::new();
    let (mut begin, mut at) = (begin, begin);
    while at < end {
        if source.at(at) == "&&" && source.tokens[at - 1].kind == Kind::Space {
            parts.push(source.code(begin, at));
            begin = at + 1;
        }
        let is_open = source.tokens[at].kind == Kind::Sign && ["(", "["].contains(&source.at(at));
        at = if is_open { source.closing(at)? + 1 } else { at + 1 };
    }
    parts.push(source.code(begin, end));
    Ok(parts)
}

/// Returns a body inside nested `if`s, one for each condition.
fn nested(conditions: &[String], body: &str, indent: &str) -> String {
    let blanks = |depth: usize| format!("{indent}{}", "    ".repeat(depth));
    let heads = conditions.iter().enumerate().map(|(depth, it)| format!("{}if {it} {{\n", blanks(depth)));
    let ends = (0..conditions.len()).rev().map(|depth| format!("\n{}}}", blanks(depth)));
    let deeper = "    ".repeat(conditions.len() - 1);
    let text = format!(
        "{}{}{}{}",
        heads.collect::<String>(),
        blanks(conditions.len()),
        indented(body, &deeper),
        ends.collect::<String>()
    );
    text.trim_start().to_string()
}

/// Joins adjacent conditions without a `let` to one condition.
fn joined(parts: Vec<String>) -> Vec<String> {
    let mut found: Vec<String> = Vec::new();
    for part in parts {
        match found.last_mut() {
            Some(last) if !last.starts_with("let ") && !part.starts_with("let ") => *last += &format!(" && {part}"),
            _ => found.push(part),
        }
    }
    found
}

/// Rewrites `let P = e else { .. };`, supported since rustc 1.65, as a match.
fn lets(source: &mut Source) -> Result<(), Fault> {
    for at in source.words("let").into_iter().rev() {
        if ["if", "while", "&&"].contains(&source.text_before(at)) {
            continue;
        }
        let sign = match source.find(at, &["=", ";"]) {
            Ok(sign) if source.at(sign) == "=" => sign,
            _ => continue,
        };
        let stop = let_end(source, sign)?;
        if source.at(stop) != "else" {
            continue;
        }
        let open = source.after(stop);
        let end = source.closing(open)?;
        let pattern = source.code(at + 1, sign);
        let value = source.code(sign + 1, stop);
        let names = bound_names(&pattern).map_err(|what| source.fault(at, what))?;
        let indent = source.indent(at);
        let otherwise = arm_of(source, open, end, &indent)?;
        let text = let_as_match(&pattern, &names, &value, &otherwise, &indent);
        let semicolon = source.after(end);
        source.replace(at, if names.is_empty() { semicolon + 1 } else { semicolon }, text);
    }
    Ok(())
}

/// Returns the `else` or the `;` that ends a `let`'s value. If the value is an `if` with an else, it is also a `;`.
fn let_end(source: &Source, sign: usize) -> Result<usize, Fault> {
    let first = source.after(sign);
    if ["if", "match", "loop", "unsafe"].contains(&source.at(first)) {
        return source.find(sign, &[";"]);
    }
    source.find(sign, &["else", ";"])
}

/// Returns the names that a pattern binds, each with its `mut `.
fn bound_names(pattern: &str) -> Result<Vec<String>, &'static str> {
    if pattern.contains('@') {
        return Err("a let with else and @ in its pattern");
    }
    let mut names = Vec::new();
    let mut rest = pattern;
    let mut is_mut = false;
    while let Some(first) = rest.find(is_in_word) {
        let word = &rest[first..];
        let length = word.find(|it| !is_in_word(it)).unwrap_or(word.len());
        let (word, tail) = word.split_at(length);
        let follows = tail.trim_start();
        let is_bound = word.starts_with(|it: char| it.is_lowercase() || it == '_')
            && word != "_"
            && !["mut", "ref", "true", "false"].contains(&word)
            && !follows.starts_with("::")
            && !follows.starts_with(['(', '{', ':'].as_ref());
        if word == "ref" {
            return Err("a let with else and ref in its pattern");
        }
        if is_bound {
            names.push(if is_mut { format!("mut {word}") } else { word.to_string() });
        }
        is_mut = word == "mut";
        rest = tail;
    }
    Ok(names)
}

/// Returns the arm that replaces an else: one short statement without braces, or a block.
fn arm_of(source: &Source, open: usize, end: usize, indent: &str) -> Result<String, Fault> {
    let body = source.code(open + 1, end);
    let statement = body.strip_suffix(';').unwrap_or(&body);
    let is_one = !statement.contains(';') && !statement.contains('\n') && !statement.contains("//");
    if is_one && indent.len() + 4 + "_ => ,".len() + statement.len() <= 100 {
        return Ok(format!("{statement},"));
    }
    // (its lines are indented one step further than the lines of the else)
    Ok(format!("{{\n{indent}        {}\n{indent}    }}", indented(&body, "    ")))
}

fn let_as_match(pattern: &str, names: &[String], value: &str, otherwise: &str, indent: &str) -> String {
    let plain: Vec<&str> = names.iter().map(|it| it.trim_start_matches("mut ")).collect();
    let matched = pattern.replace("mut ", "");
    let (to, given) = match names {
        [] => (String::new(), "{}".to_string()),
        [one] => (format!("let {one} = "), format!("{},", plain[0])),
        _ => (format!("let ({}) = ", names.join(", ")), format!("({}),", plain.join(", "))),
    };
    let brace = if value.contains('\n') && !value.ends_with(')') || chain_of_lines(value) {
        format!("\n{indent}{{")
    } else {
        " {".to_string()
    };
    format!("{to}match {value}{brace}\n{indent}    {matched} => {given}\n{indent}    _ => {otherwise}\n{indent}}}")
}

/// Whether a value is a chain of calls over several lines.
fn chain_of_lines(value: &str) -> bool {
    value.lines().skip(1).any(|it| it.trim_start().starts_with('.'))
}

/// Rewrites a pattern `..=X` of an unsigned number, supported since rustc 1.80.
fn ranges(source: &mut Source) {
    for at in 0..source.tokens.len() {
        if source.at(at) == "..=" && ["{", ",", "|", "}"].contains(&source.text_before(at)) {
            source.replace(at, at + 1, "0..=");
        }
    }
}

/// Rewrites `str::from_utf8`, an associated function since rustc 1.87.
fn texts(source: &mut Source) {
    for at in source.words("str") {
        if source.is_at(at, &["str", "::", "from_utf8"]) && source.text_before(at) != "::" {
            source.replace(at, at + 1, "core::str");
        }
    }
}

/// Renames `s.to_vec(alloc)` and similar methods: Rust's methods with these names take no allocator. A method that the
/// sources define under such a name is renamed too.
fn methods(source: &mut Source) {
    for name in ["to_vec", "collect", "replace"] {
        for at in source.words(name) {
            let open = source.after(at);
            let is_called = source.is_at(open, &["(", "alloc"]) || source.is_at(open, &["(", "rt", ".", "alloc"]);
            let is_own = source.is_at(open, &["(", "&", "self", ",", "alloc", ":", "Global"]);
            if is_called && source.text_before(at) == "." || is_own && source.text_before(at) == "fn" {
                source.tokens[at].text += "_in";
            }
        }
    }
}

/// Rewrites `r.expect(rt, "..")` on a result: Rust's method takes no handle, and prints the error, which may have no
/// text here.
fn expectations(source: &mut Source) {
    for at in source.words("expect") {
        let open = source.after(at);
        let handle = source.next(if source.is_at(open, &["(", "&"]) { source.after(open) + 1 } else { open + 1 });
        let comma = source.after(handle);
        if source.text_before(at) == "."
            && source.at(open) == "("
            && source.at(comma) == ","
            && source.is_word(handle, "rt")
        {
            source.clear(open + 1, source.after(comma));
            let dot = source.before(at).unwrap_or(at);
            let space = source.tokens[dot - 1].clone();
            let space = if matches!(space.kind, Kind::Space) { space.text } else { String::new() };
            source.tokens[at].text = format!("ok(){space}.expect");
        }
    }
}

/// Adds the bound `Sized` to a trait if one of its methods returns `Self` inside a type; Rust requires it.
fn traits(source: &mut Source) -> Result<(), Fault> {
    for at in source.words("trait") {
        let name = source.after(at);
        let open = source.find(name, &["{"])?;
        let end = source.closing(open)?;
        let has = |it: usize, text: &str| source.text_before(it) == text;
        let is_held = source.words("Self").into_iter().any(|it| it > open && it < end && has(it, "<"));
        if is_held && source.text_before(open) == source.at(name) {
            let text = format!("{}: Sized", source.at(name));
            source.replace(name, name + 1, text);
        }
    }
    Ok(())
}

/// Rewrites `assert!(rt; ..)` and `panic!(rt; ..)`: Rust's macros take no handle. `println!(rt; ..)` becomes the kit's
/// macro, because it can fail.
fn handles(source: &mut Source) -> Result<(), Fault> {
    for name in ["assert", "assert_eq", "panic", "println"] {
        for at in source.words(name) {
            let open = match source.past(at + 1, &["!", "("]) {
                Some(past) => past - 1,
                None => continue,
            };
            let end = source.closing(open)?;
            let semicolon = source.find(open + 1, &[";"]).unwrap_or(end);
            if name == "println" && semicolon < end {
                source.tokens[at].text = "crate::println_on".to_string();
            } else if name == "println" {
                return Err(source.fault(at, "println! without a handle"));
            } else if semicolon < end {
                let is_in_lines = source.tokens[semicolon + 1].text.contains('\n');
                let first = if is_in_lines { semicolon + 1 } else { source.after(semicolon) };
                source.clear(open + 1, first);
            }
        }
    }
    Ok(())
}

/// Rewrites `vec![in alloc; ..]` and `format!(in alloc; ..)` as the kit's macros, because they can fail.
fn allocators(source: &mut Source) {
    for name in ["vec", "format"] {
        for at in source.words(name) {
            if source.is_at(at + 1, &["!", "[", "in"]) || source.is_at(at + 1, &["!", "(", "in"]) {
                source.tokens[at].text = format!("crate::{name}_in");
            }
        }
    }
}

/// Rewrites `#[test] fn name(rt: HostRuntime) {`: Rust's tests get no arguments.
fn tests(source: &mut Source) -> Result<(), Fault> {
    for at in source.words("test") {
        if !(source.is_at(at, &["test", "]"]) && source.text_before(at) == "[") {
            continue;
        }
        let name = source.find(at, &["fn"]).map(|it| source.after(it))?;
        let open = source.after(name);
        let close = source.closing(open)?;
        match source.code(open + 1, close).as_str() {
            "" => continue,
            "_rt: HostRuntime" => {
                source.clear(open + 1, close);
                continue;
            }
            "rt: HostRuntime" => source.clear(open + 1, close),
            other => return Err(source.fault(at, format!("a test that takes {other}"))),
        }
        let body = source.find(close, &["{"])?;
        source.replace(body, body + 1, "{\n    let rt = HostRuntime;");
    }
    Ok(())
}

/// Makes `fn main(rt: HostRuntime)` public, because the program's `main` calls it, and also the failure that it
/// returns.
fn main(source: &mut Source) {
    for at in source.words("main") {
        match source.before(at) {
            Some(word) if source.is_at(at, &["main", "(", "rt", ":"]) && source.is_word(word, "fn") => {
                source.tokens[word].text = "pub fn".to_string();
            }
            _ => continue,
        }
        for item in source.words("enum") {
            if source.text_before(item) != "pub" {
                source.tokens[item].text = "pub enum".to_string();
            }
        }
    }
}
