//! The tokens of a source as Rust's lexer sees them, with the space and the comments between them.

use super::fault::Fault;

/// The kind of a token.
#[derive(Clone, Copy, Debug, PartialEq, Eq)]
pub enum Kind {
    /// Blanks and line breaks.
    Space,
    /// A comment to the end of its line, including `///` and `//!`.
    Comment,
    /// A string or a character, including byte strings and bytes.
    Literal,
    /// A lifetime or a label.
    Life,
    /// A name or a keyword.
    Word,
    /// A number.
    Number,
    /// A sign: a single character, or one of `SIGNS`.
    Sign,
    /// Text from a rewrite, which may contain several tokens.
    Written,
}

/// A token and the line where it starts.
#[derive(Clone, Debug)]
pub struct Token {
    pub kind: Kind,
    /// The text; empty if the token is erased.
    pub text: String,
    pub line: usize,
}

/// The signs of two characters; `..=` has three.
const SIGNS: [&str; 11] = ["::", "->", "=>", "..", "==", "!=", "<=", ">=", "&&", "||", "+="];

/// Returns the tokens of a text.
pub fn tokens(path: &str, text: &str) -> Result<Vec<Token>, Fault> {
    let mut found: Vec<Token> = Vec::new();
    let (mut rest, mut line) = (text, 1);
    while let Some(first) = rest.chars().next() {
        let (kind, length) = first_token(rest, first).map_err(|what| Fault::at(path, line, what))?;
        let (token, tail) = rest.split_at(length);
        found.push(Token { kind, text: token.to_string(), line });
        line += token.matches('\n').count();
        rest = tail;
    }
    Ok(found)
}

/// Returns the kind of the first token, and its length in bytes.
fn first_token(text: &str, first: char) -> Result<(Kind, usize), &'static str> {
    if first.is_whitespace() {
        return Ok((Kind::Space, span(text, char::is_whitespace)));
    }
    if first == '/' && text.starts_with("//") {
        return Ok((Kind::Comment, text.find('\n').unwrap_or(text.len())));
    }
    if first == '/' && text.starts_with("/*") {
        return Err("a comment between /* and */");
    }
    if matches!(first, '"' | '\'' | 'b' | 'r') {
        if let Some(found) = quoted(text, first)? {
            return Ok(found);
        }
    }
    if first.is_ascii_digit() {
        return Ok((Kind::Number, span(text, is_in_word)));
    }
    if is_in_word(first) {
        return Ok((Kind::Word, span(text, is_in_word)));
    }
    let length = match text.get(..2) {
        Some("..") if text.starts_with("..=") => 3,
        Some(two) if SIGNS.contains(&two) => 2,
        _ => first.len_utf8(),
    };
    Ok((Kind::Sign, length))
}

/// Matches a string, a character or a lifetime at the start.
fn quoted(text: &str, first: char) -> Result<Option<(Kind, usize)>, &'static str> {
    if let Some(length) = string(text)? {
        return Ok(Some((Kind::Literal, length)));
    }
    if first == '\'' || text.starts_with("b'") {
        if let Some(length) = character(text) {
            return Ok(Some((Kind::Literal, length)));
        }
    }
    if first != '\'' {
        return Ok(None);
    }
    let length = 1 + span(&text[1..], is_in_word);
    Ok(Some(if length > 1 { (Kind::Life, length) } else { (Kind::Sign, 1) }))
}

/// Whether a name may contain this character.
pub fn is_in_word(it: char) -> bool {
    it.is_alphanumeric() || it == '_'
}

/// Returns the length of the leading characters that satisfy a condition.
fn span(text: &str, is_so: impl Fn(char) -> bool) -> usize {
    text.find(|it| !is_so(it)).unwrap_or(text.len())
}

/// Returns the length of a string at the start: `".."`, `b".."`, `r#".."#`.
fn string(text: &str) -> Result<Option<usize>, &'static str> {
    let prefix = span(text, |it| it == 'b' || it == 'r');
    let (prefix, tail) = text.split_at(prefix);
    if prefix.len() > 2 {
        return Ok(None);
    }
    let hashes = if prefix.ends_with('r') { span(tail, |it| it == '#') } else { 0 };
    let body = match tail[hashes..].strip_prefix('"') {
        Some(body) => body,
        None => return Ok(None),
    };
    let end = if prefix.ends_with('r') {
        body.find(&format!("\"{}", "#".repeat(hashes))).map(|at| at + 1 + hashes)
    } else {
        closing_quote(body)
    };
    let length = end.ok_or("a string without an end")?;
    Ok(Some(prefix.len() + hashes + 1 + length))
}

/// Returns the length up to and including the quote that ends a string.
fn closing_quote(body: &str) -> Option<usize> {
    let mut is_escaped = false;
    for (at, it) in body.char_indices() {
        match it {
            _ if is_escaped => is_escaped = false,
            '\\' => is_escaped = true,
            '"' => return Some(at + 1),
            _ => {}
        }
    }
    None
}

/// Returns the length of a character at the start: `'a'`, `'\n'`, `b'a'`. None if it is a lifetime.
fn character(text: &str) -> Option<usize> {
    let start = if text.starts_with('b') { 2 } else { 1 };
    let body = &text[start..];
    if let Some(escaped) = body.strip_prefix('\\') {
        // (the character after the backslash may be a quote)
        let first = escaped.chars().next()?.len_utf8();
        return escaped[first..].find('\'').map(|at| start + 1 + first + at + 1);
    }
    let first = body.chars().next().filter(|it| *it != '\'' && *it != '\n')?.len_utf8();
    body[first..].starts_with('\'').then(|| start + first + 1)
}

#[cfg(test)]
mod tests {
    use super::*;

    fn texts(text: &str) -> Vec<(Kind, String)> {
        let found = tokens("a.rt", text).unwrap();
        found.into_iter().filter(|it| it.kind != Kind::Space).map(|it| (it.kind, it.text)).collect()
    }

    #[test]
    fn all_text_is_in_tokens() {
        let text = "fn a<'x>(s: &'x str) -> u8 { b'\\'' + '\\u{41}' as u8 /  0x_ffu8 } // é\n\"a\\\"b\"";
        let found = tokens("a.rt", text).unwrap();
        assert_eq!(found.iter().map(|it| it.text.as_str()).collect::<String>(), text);
    }

    #[test]
    fn kinds() {
        use Kind::{Life, Literal, Number, Sign, Word};
        let found = texts("r#\"a\"b\"# 'a 'b' ..= 12u8 break");
        let kinds: Vec<Kind> = found.iter().map(|it| it.0).collect();
        assert_eq!(kinds, [Literal, Life, Literal, Sign, Number, Word]);
    }

    #[test]
    fn lines() {
        let found = tokens("a.rt", "a\n\"\n\"\nb").unwrap();
        assert_eq!(found.iter().map(|it| it.line).collect::<Vec<_>>(), [1, 1, 2, 3, 4]);
    }

    #[test]
    fn what_has_no_end() {
        assert_eq!(tokens("a.rt", "a\n \"b").unwrap_err().to_string(), "a.rt:2: a string without an end");
    }
}
