//! Erases clauses, ghost items, and whatever only a proof reads. None of these has an effect when the program runs.

use super::fault::Fault;
use super::known;
use super::source::Source;
use super::token::Kind;

/// Erases everything in a source that only a proof reads.
pub fn erase(source: &mut Source) -> Result<(), Fault> {
    models(source)?;
    drops(source)?;
    clauses(source)?;
    source.tokens.retain(|it| !it.text.is_empty());
    ghosts(source)?;
    source.tokens.retain(|it| !it.text.is_empty());
    attributes(source)?;
    derives(source)?;
    markers(source)?;
    bounds(source)?;
    labels(source);
    source.tokens.retain(|it| !it.text.is_empty());
    Ok(())
}

/// Erases `requires name { .. }` and `ensures* name { .. }` between the head of a function or closure and its body,
/// with the comments between them.
fn clauses(source: &mut Source) -> Result<(), Fault> {
    let mut at = 0;
    while at < source.tokens.len() {
        if !is_clause(source, at) {
            at += 1;
            continue;
        }
        let head = source.before(at).ok_or_else(|| source.fault(at, "a clause that follows no function or closure"))?;
        let mut body = at;
        while is_clause(source, body) {
            body = past_clause(source, body)?;
        }
        match source.at(body) {
            ";" => source.clear(head + 1, body),
            "{" => {
                let space = space_before_body(source, head, at);
                source.clear(head + 1, body);
                source.tokens[head + 1].kind = Kind::Space;
                source.tokens[head + 1].text = space;
                closure(source, head, body)?;
            }
            other => return Err(source.fault(body, format!("{other} after the clauses of a function"))),
        }
        at = body;
    }
    Ok(())
}

fn is_clause(source: &Source, at: usize) -> bool {
    at < source.tokens.len() && (source.is_word(at, "requires") || source.is_word(at, "ensures"))
}

/// Returns the first code after a clause.
fn past_clause(source: &Source, clause: usize) -> Result<usize, Fault> {
    let mut at = source.after(clause);
    if source.at(at) == "*" {
        at = source.after(at);
    }
    if source.tokens.get(at).map_or(false, |it| it.kind == Kind::Word) {
        at = source.after(at);
    }
    if source.at(at) != "{" {
        return Err(source.fault(clause, "a clause whose form isn't `requires name { .. }`"));
    }
    Ok(source.after(source.closing(at)?))
}

/// Returns the space before a body: a blank, or a line break if the head ends with a bound.
fn space_before_body(source: &Source, head: usize, clause: usize) -> String {
    if source.at(head) != "," {
        return " ".to_string();
    }
    let indent = source.indent(clause);
    format!("\n{}", &indent[indent.len().min(4)..])
}

/// Removes the braces of a closure that needed them only for its clauses: `|it| { e }` becomes `|it| e`.
fn closure(source: &mut Source, head: usize, body: usize) -> Result<(), Fault> {
    if source.at(head) != "|" {
        return Ok(());
    }
    let end = source.closing(body)?;
    let text = source.code(body + 1, end);
    if !text.contains('\n') && !text.contains(';') {
        source.replace(body, end + 1, text);
    }
    Ok(())
}

/// Erases `ghost use ..;`, `ghost name = { .. };` in an impl or a trait, and `ghost name: { .. },` in a struct.
fn ghosts(source: &mut Source) -> Result<(), Fault> {
    for at in source.words("ghost") {
        if !source.is_word(at, "ghost") {
            continue;
        }
        let name = source.after(at);
        let sign = source.after(name);
        let end = match (source.at(name), source.at(sign)) {
            ("use", _) | (_, "=") => source.find(name, &[";"])?,
            (_, ":") => source.find(sign, &[";", ",", "}"])?,
            _ => return Err(source.fault(at, "a ghost item in an unknown form")),
        };
        let past = if source.at(end) == "}" { end } else { end + 1 };
        let start = source.start_of_item(at);
        source.erase(start, past);
    }
    Ok(())
}

/// Erases `#[tactic(..)]` and `#[cycle(..)]`, and renames the formatter's attribute to `rustfmt`.
fn attributes(source: &mut Source) -> Result<(), Fault> {
    for at in 0..source.tokens.len() {
        if source.at(at) != "#" {
            continue;
        }
        let (open, is_inner) = match (source.past(at, &["#", "!", "["]), source.past(at, &["#", "["])) {
            (Some(past), _) => (past - 1, true),
            (_, Some(past)) => (past - 1, false),
            _ => continue,
        };
        let name = source.after(open);
        let end = source.closing(open)?;
        match source.at(name) {
            "tactic" | "cycle" if is_inner => source.erase(at, end + 1),
            "tactic" | "cycle" => source.erase_line(at, end + 1),
            "rattlefmt" => source.tokens[name].text = "rustfmt".to_string(),
            _ => {}
        }
    }
    Ok(())
}

/// Removes `Drop` from derives: every Rust type can be dropped.
fn derives(source: &mut Source) -> Result<(), Fault> {
    without_derive(source, "Drop").map(|_| ())
}

/// Removes a name from all derives. Returns the positions of the derives that contained it.
pub fn without_derive(source: &mut Source, name: &str) -> Result<Vec<usize>, Fault> {
    let mut found = Vec::new();
    for at in source.words("derive") {
        if !source.is_at(at, &["derive", "("]) {
            continue;
        }
        let open = source.after(at);
        let end = source.closing(open)?;
        let text = source.code(open + 1, end);
        let names: Vec<&str> = text.split(',').map(str::trim).filter(|it| !it.is_empty()).collect();
        if !names.contains(&name) {
            continue;
        }
        found.push(at);
        let kept: Vec<&str> = names.into_iter().filter(|it| *it != name).collect();
        if !kept.is_empty() {
            source.replace(open + 1, end, kept.join(", "));
            continue;
        }
        // (the whole attribute, with its `#[` and `]`)
        let bracket = source.before(at).unwrap_or(at);
        let hash = source.before(bracket).unwrap_or(at);
        let close = source.after(end);
        if source.at(hash) != "#" || source.at(close) != "]" {
            return Err(source.fault(at, "a derive whose form isn't `#[derive(..)]`"));
        }
        source.erase_line(hash, close + 1);
    }
    Ok(found)
}

/// Erases `impl Model for ..`, which defines how contracts view a type.
fn models(source: &mut Source) -> Result<(), Fault> {
    for at in source.words("impl") {
        if !source.is_word(at, "impl") {
            continue;
        }
        let brace = match source.find(at, &["{", ";"]) {
            Ok(brace) if source.at(brace) == "{" => brace,
            _ => continue,
        };
        let is_model = (at..brace).any(|it| source.is_at(it, &["Model", "for"]) && source.is_word(it, "Model"));
        if is_model {
            let end = source.closing(brace)?;
            let start = source.start_of_item(at);
            source.erase(start, end + 1);
        }
    }
    Ok(())
}

/// Erases `impl Drop for T { fn drop(self) .. }` of a type with a `drop` that only frees what its fields own: Rust
/// drops the fields.
fn drops(source: &mut Source) -> Result<(), Fault> {
    for at in source.words("impl") {
        if !source.is_at(at, &["impl", "Drop", "for"]) {
            continue;
        }
        let open = source.find(at, &["{"])?;
        let name = source.text_before(open);
        if !known::FREED_BY_ITS_FIELDS.contains(&name) {
            return Err(
                source.fault(at, format!("it isn't known whether the fields of {name} free all that its drop frees"))
            );
        }
        let end = source.closing(open)?;
        let start = source.start_of_item(at);
        source.erase(start, end + 1);
    }
    Ok(())
}

/// Erases imports of `Model`, and of `Send` and `Sync`, which Rust needn't import.
fn markers(source: &mut Source) -> Result<(), Fault> {
    for at in source.words("use") {
        let path = match source.past(at, &["use", "std", "::", "marker", "::"]) {
            Some(path) => path,
            None => continue,
        };
        let end = source.find(path, &[";"])?;
        let text = source.code(path, end);
        let names = text.trim_matches(|it| it == '{' || it == '}').split(',').map(str::trim);
        let kept: Vec<&str> = names.filter(|it| !["Model", "Send", "Sync", ""].contains(it)).collect();
        match kept.as_slice() {
            [] => source.erase(at, end + 1),
            [one] => source.replace(path, end, one.to_string()),
            more => source.replace(path, end, format!("{{{}}}", more.join(", "))),
        }
    }
    Ok(())
}

/// Erases the bound `Drop`, which states that a type may be dropped: in Rust every type may.
fn bounds(source: &mut Source) -> Result<(), Fault> {
    for at in source.words("Drop") {
        let before = match source.before(at) {
            Some(before) if [":", "+"].contains(&source.at(before)) => before,
            _ => continue,
        };
        if source.at(before) == ":" && source.at(source.after(at)) == "+" {
            return Err(source.fault(at, "the bound Drop before another bound"));
        }
        source.erase(before, at + 1);
        let of = source.before(before).unwrap_or(before);
        let comes = source.before(of).unwrap_or(of);
        if source.is_word(comes, "where") {
            let comma = source.after(at);
            let brace = source.after(comma);
            if source.at(comma) != "," || source.at(brace) != "{" {
                return Err(source.fault(at, "the bound Drop next to other bounds after where"));
            }
            source.erase(comes, brace);
            source.tokens[comes].kind = Kind::Space;
            source.tokens[comes].text = " ".to_string();
        }
    }
    Ok(())
}

/// Erases a loop label that no `break` or `continue` names. Proofs refer to the loop by this label.
fn labels(source: &mut Source) {
    for at in 0..source.tokens.len() {
        if !matches!(source.tokens[at].kind, Kind::Life) {
            continue;
        }
        let colon = source.after(at);
        let word = source.after(colon);
        if source.at(colon) != ":" || !["while", "loop", "for"].contains(&source.at(word)) {
            continue;
        }
        let label = source.at(at);
        let is_named = (0..source.tokens.len())
            .any(|it| source.at(it) == label && ["break", "continue"].contains(&source.text_before(it)));
        if !is_named {
            source.clear(at, word);
        }
    }
}
