//! Lays out the generated code as rustfmt does. It keeps a source's layout, except where erasing or rewriting changed
//! something.

/// The maximum number of characters in a line.
pub const WIDTH: usize = 100;

/// Returns a text in which all lines after the first are indented further.
pub fn indented(text: &str, deeper: &str) -> String {
    let lines = text.lines().enumerate();
    let deepened = lines.map(|(at, line)| {
        let is_moved = at > 0 && !line.is_empty();
        format!("{}{line}", if is_moved { deeper } else { "" })
    });
    deepened.collect::<Vec<_>>().join("\n")
}

/// Lays out a text after erasing and rewriting.
pub fn laid_out(text: &str) -> String {
    let lines = embraced(&text.lines().map(|it| it.trim_end().to_string()).collect::<Vec<_>>());
    let mut found: Vec<String> = Vec::new();
    let mut at = 0;
    while at < lines.len() {
        let line = &lines[at];
        at += 1;
        if line.is_empty() && is_superfluous(&found, lines.get(at)) {
            continue;
        }
        if let Some((joined, past)) = joined(&lines, at - 1) {
            found.push(joined);
            at = past;
        } else if line.starts_with("impl") && line.ends_with('{') && lines.get(at).map_or(false, |it| it == "}") {
            found.push(format!("{line}}}"));
            at += 1;
        } else if line.trim_start().starts_with("for ") && line.ends_with("> {") && !found.is_empty() {
            found.extend([line.trim_end_matches(" {").to_string(), "{".to_string()]);
        } else if width(line) > WIDTH && is_signature(line) {
            found.extend(signature(line));
        } else if width(line) > WIDTH && is_arm(line) {
            found.extend(arm(line));
        } else {
            found.push(line.clone());
        }
    }
    while found.last().map_or(false, |it| it.is_empty()) {
        found.pop();
    }
    found.join("\n") + "\n"
}

/// Returns the number of characters in a line.
pub fn width(line: &str) -> usize {
    line.chars().count()
}

/// Whether an empty line is redundant between the lines before it and the line after it.
fn is_superfluous(before: &[String], after: Option<&String>) -> bool {
    let is_open = |it: &String| it.ends_with(['{', '(', '['].as_ref()) && !it.trim_start().starts_with("//");
    let opens = before.last().map_or(true, |it| it.is_empty() || is_open(it));
    let closes = after.map_or(true, |it| it.trim_start().starts_with(['}', ')', ']'].as_ref()));
    opens || closes
}

/// Whether a line is a function's complete head.
fn is_signature(line: &str) -> bool {
    let words = line.trim_start().trim_start_matches("pub(crate) ").trim_start_matches("pub ");
    let words = words.trim_start_matches("const ").trim_start_matches("unsafe ").trim_start_matches("extern \"C\" ");
    words.starts_with("fn ") && line.ends_with([';', '{'].as_ref())
}

/// Returns a function's head joined on one line, if it is on several lines and fits on one, and the line after the
/// head.
fn joined(lines: &[String], at: usize) -> Option<(String, usize)> {
    let first = lines[at].strip_suffix('(').filter(|it| is_signature(&format!("{it}{{")))?;
    let indent = first.len() - first.trim_start().len();
    let close = format!("{})", " ".repeat(indent));
    let end = (at + 1..lines.len()).find(|it| lines[*it].starts_with(&close))?;
    let parameters: Vec<&str> = lines[at + 1..end].iter().map(|it| it.trim()).collect();
    let line = format!("{first}({}{}", parameters.join(" ").trim_end_matches(','), lines[end].trim_start());
    let is_one = is_signature(&line) && parameters.iter().all(|it| it.ends_with(',') && !it.starts_with("//"));
    (is_one && width(&line) <= WIDTH).then(|| (line, end + 1))
}

/// Moves a struct that is the only argument next to its bracket, as rustfmt does: `A(B {`, without `B` on a separate
/// line.
fn embraced(lines: &[String]) -> Vec<String> {
    let mut lines = lines.to_vec();
    let mut at = 0;
    while at + 1 < lines.len() {
        if let Some(end) = embraced_end(&lines, at) {
            let inner = lines.remove(at + 1);
            lines[at] += inner.trim_start();
            for line in &mut lines[at + 1..end] {
                *line = line.strip_prefix("    ").unwrap_or(line).to_string();
            }
            let close = lines.remove(end);
            lines[end - 1] = format!("{}{}", lines[end - 1].trim_end_matches(','), close.trim_start());
        }
        at += 1;
    }
    lines
}

/// Returns the line after which the bracket closes, if a line opens a bracket around a single struct. Nesting inside
/// the struct doesn't count.
fn embraced_end(lines: &[String], at: usize) -> Option<usize> {
    let indent = |line: &str| line.len() - line.trim_start().len();
    let (outer, inner) = (indent(&lines[at]), indent(&lines[at + 1]));
    let is_struct = lines[at].ends_with('(') && lines[at + 1].ends_with(" {") && inner == outer + 4;
    let name = lines[at + 1].trim().trim_end_matches(" {");
    if !is_struct || !name.chars().all(char::is_alphanumeric) {
        return None;
    }
    let end = (at + 2..lines.len()).find(|it| indent(&lines[*it]) <= inner)?;
    let is_closed = lines[end].trim() == "}," && lines.get(end + 1)?.starts_with(&format!("{})", " ".repeat(outer)));
    is_closed.then_some(end)
}

/// Whether a line is a match arm with an expression.
fn is_arm(line: &str) -> bool {
    line.contains(" => ") && line.ends_with("),") && !line.trim_start().starts_with("//")
}

/// Splits an arm so that its expression is on separate lines.
fn arm(line: &str) -> Vec<String> {
    let indent: String = line.chars().take_while(|it| *it == ' ').collect();
    match line.trim_end_matches(',').split_once(" => ") {
        Some((pattern, it)) => vec![format!("{pattern} => {{"), format!("{indent}    {it}"), format!("{indent}}}")],
        None => vec![line.to_string()],
    }
}

/// Splits a function's head to one parameter per line.
fn signature(line: &str) -> Vec<String> {
    let indent: String = line.chars().take_while(|it| *it == ' ').collect();
    let open = match parameters_at(line) {
        Some(open) => open,
        None => return vec![line.to_string()],
    };
    let close = closing(line, open);
    let mut found = vec![line[..=open].to_string()];
    found.extend(split(&line[open + 1..close]).into_iter().map(|it| format!("{indent}    {it},")));
    found.push(format!("{indent}{}", &line[close..]));
    found
}

/// Returns where a function's parameters start: the first `(` outside `<` and `>`.
fn parameters_at(line: &str) -> Option<usize> {
    let mut depth = 0;
    let mut last = ' ';
    for (at, it) in line.char_indices() {
        match it {
            '<' => depth += 1,
            '>' if last != '-' => depth -= 1,
            '(' if depth == 0 && at > line.find("fn ").unwrap_or(0) => return Some(at),
            _ => {}
        }
        last = it;
    }
    None
}

fn closing(line: &str, open: usize) -> usize {
    let mut depth = 0;
    for (at, it) in line.char_indices().skip_while(|it| it.0 < open) {
        match it {
            '(' => depth += 1,
            ')' => depth -= 1,
            _ => {}
        }
        if depth == 0 {
            return at;
        }
    }
    line.len()
}

/// Splits a text at commas outside brackets.
pub fn split(text: &str) -> Vec<String> {
    let mut found = vec![String::new()];
    let mut depth = 0;
    let mut last = ' ';
    for it in text.chars() {
        match it {
            '(' | '[' | '{' | '<' => depth += 1,
            ')' | ']' | '}' => depth -= 1,
            '>' if last != '-' && last != '=' => depth -= 1,
            _ => {}
        }
        if it == ',' && depth == 0 {
            found.push(String::new());
        } else if let Some(part) = found.last_mut() {
            part.push(it);
        }
        last = it;
    }
    found.iter().map(|it| it.trim().to_string()).filter(|it| !it.is_empty()).collect()
}

/// Fills lines with words, each followed by a comma.
pub fn filled(words: &[String], indent: &str) -> Vec<String> {
    let mut lines: Vec<String> = Vec::new();
    for (at, word) in words.iter().enumerate() {
        // (rustfmt reserves room for a blank before the next word)
        let blank = usize::from(at + 1 < words.len());
        match lines.last_mut() {
            Some(line) if width(line) + " ,".len() + width(word) + blank <= WIDTH => *line += &format!(" {word},"),
            _ => lines.push(format!("{indent}{word},")),
        }
    }
    lines
}

#[cfg(test)]
mod tests {
    use super::*;

    #[test]
    fn empty_lines() {
        assert_eq!(laid_out("\n\na {\n\n    b\n\n\n    c \n\n}\n\n"), "a {\n    b\n\n    c\n}\n");
    }

    #[test]
    fn a_long_head() {
        let line = format!("    pub fn a<T: Into<u8>>(b: (u8, u8), c: {}) -> u8 {{", "d".repeat(WIDTH));
        let laid = laid_out(&line);
        assert!(laid.starts_with("    pub fn a<T: Into<u8>>(\n        b: (u8, u8),\n        c: d"));
        assert!(laid.ends_with("d,\n    ) -> u8 {\n"));
    }

    #[test]
    fn a_short_head() {
        assert_eq!(laid_out("fn a(\n    b: u8,\n    c: u8,\n) -> u8 {\n}"), "fn a(b: u8, c: u8) -> u8 {\n}\n");
    }

    #[test]
    fn a_struct_alone_in_brackets() {
        let lines = "    Err(\n        A {\n            b,\n            c,\n        },\n    ) => d,";
        assert_eq!(laid_out(lines), "    Err(A {\n        b,\n        c,\n    }) => d,\n");
    }

    #[test]
    fn heads_of_impls() {
        assert_eq!(laid_out("impl A for B {\n}"), "impl A for B {}\n");
        assert_eq!(laid_out("impl A\n    for B<C> {\n    d\n}"), "impl A\n    for B<C>\n{\n    d\n}\n");
    }

    #[test]
    fn a_long_arm() {
        let line = format!("    a => b({}),", "c".repeat(WIDTH - 10));
        assert_eq!(laid_out(&line), format!("    a => {{\n        b({})\n    }}\n", "c".repeat(WIDTH - 10)));
    }

    #[test]
    fn parts() {
        assert_eq!(split("a: Vec<(u8, u8)>, b: fn(u8) -> u8, "), ["a: Vec<(u8, u8)>", "b: fn(u8) -> u8"]);
    }
}
