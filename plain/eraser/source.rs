//! A source as tokens that can be erased and replaced.

use super::fault::Fault;
use super::token::{tokens, Kind, Token};

/// A file of a crate.
pub struct Source {
    /// The path relative to the repository's root.
    pub path: String,
    pub tokens: Vec<Token>,
}

impl Source {
    /// Creates a source from its text.
    pub fn new(path: &str, text: &str) -> Result<Source, Fault> {
        Ok(Source { path: path.to_string(), tokens: tokens(path, text)? })
    }

    /// Returns the current text.
    pub fn text(&self) -> String {
        self.tokens.iter().map(|it| it.text.as_str()).collect()
    }

    /// Creates a fault at a token.
    pub fn fault(&self, at: usize, what: impl Into<String>) -> Fault {
        let line = self.tokens.get(at).or_else(|| self.tokens.last()).map_or(1, |it| it.line);
        Fault::at(&self.path, line, what)
    }

    /// Returns the text of a token; an empty string at the end.
    pub fn at(&self, at: usize) -> &str {
        self.tokens.get(at).map_or("", |it| it.text.as_str())
    }

    /// Whether a token is code: neither erased, nor space, nor a comment.
    pub fn is_code(&self, at: usize) -> bool {
        let it = &self.tokens[at];
        !it.text.is_empty() && !matches!(it.kind, Kind::Space | Kind::Comment)
    }

    /// Returns the first code token at or after a position, or the end.
    pub fn next(&self, at: usize) -> usize {
        // (an explicit loop, as in `words`: the eraser is compiled without optimization, for the shortest total time)
        let mut at = at;
        while at < self.tokens.len() && !self.is_code(at) {
            at += 1;
        }
        at.min(self.tokens.len())
    }

    /// Returns the first code token after a position, or the end.
    pub fn after(&self, at: usize) -> usize {
        self.next(at + 1)
    }

    /// Returns the last code token before a position.
    pub fn before(&self, at: usize) -> Option<usize> {
        (0..at).rev().find(|it| self.is_code(*it))
    }

    /// Returns the text of the last code token before a position.
    pub fn text_before(&self, at: usize) -> &str {
        self.before(at).map_or("", |it| self.at(it))
    }

    /// Whether the code from a position on begins with these tokens.
    pub fn is_at(&self, at: usize, texts: &[&str]) -> bool {
        self.past(at, texts).is_some()
    }

    /// Returns the position after these tokens, if the code from a position on begins with them.
    pub fn past(&self, at: usize, texts: &[&str]) -> Option<usize> {
        let mut at = at;
        for text in texts {
            at = self.next(at);
            if self.at(at) != *text || self.tokens[at].kind == Kind::Literal {
                return None;
            }
            at += 1;
        }
        Some(at)
    }

    /// Whether a token is this word.
    pub fn is_word(&self, at: usize, word: &str) -> bool {
        let it = &self.tokens[at];
        it.text.len() == word.len() && matches!(it.kind, Kind::Word) && it.text == word
    }

    /// Returns all tokens that are this word.
    pub fn words(&self, word: &str) -> Vec<usize> {
        let mut found = Vec::new();
        // (a slice is indexed without a call, even in unoptimized code)
        let tokens = self.tokens.as_slice();
        let mut at = 0;
        while at < tokens.len() {
            if matches!(tokens[at].kind, Kind::Word) && tokens[at].text == word {
                found.push(at);
            }
            at += 1;
        }
        found
    }

    fn is_sign(&self, at: usize, signs: &str) -> bool {
        let it = &self.tokens[at];
        it.text.len() == 1 && matches!(it.kind, Kind::Sign) && signs.contains(it.text.as_str())
    }

    /// Returns the bracket that closes the bracket at this token.
    pub fn closing(&self, open: usize) -> Result<usize, Fault> {
        let mut depth = 0;
        for at in open..self.tokens.len() {
            if self.is_sign(at, "([{") {
                depth += 1;
            } else if self.is_sign(at, ")]}") {
                depth -= 1;
                if depth == 0 {
                    return Ok(at);
                }
            }
        }
        Err(self.fault(open, "a bracket that is never closed"))
    }

    /// Returns the first of these tokens from a position on, outside brackets.
    pub fn find(&self, from: usize, ends: &[&str]) -> Result<usize, Fault> {
        let mut at = from;
        while at < self.tokens.len() {
            if self.tokens[at].kind != Kind::Literal && self.is_code(at) && ends.contains(&self.at(at)) {
                return Ok(at);
            }
            at = if self.is_sign(at, "([{") { self.closing(at)? + 1 } else { at + 1 };
        }
        Err(self.fault(from, format!("no {} after this", ends.join(" or "))))
    }

    /// Returns the text between two tokens, trimmed.
    pub fn code(&self, begin: usize, end: usize) -> String {
        let text: String = self.tokens[begin..end].iter().map(|it| it.text.as_str()).collect();
        text.trim().to_string()
    }

    /// Erases the tokens in a range.
    pub fn clear(&mut self, begin: usize, end: usize) {
        for it in &mut self.tokens[begin..end] {
            it.text.clear();
        }
    }

    /// Erases tokens, and the space before them.
    pub fn erase(&mut self, begin: usize, end: usize) {
        self.clear(begin, end);
        for at in (0..begin).rev() {
            match self.tokens[at].kind {
                Kind::Space => self.tokens[at].text.clear(),
                _ if self.tokens[at].text.is_empty() => {}
                _ => break,
            }
        }
    }

    /// Erases tokens, and the space after them, for tokens on a separate line before the line to which they belong.
    pub fn erase_line(&mut self, begin: usize, end: usize) {
        self.clear(begin, end);
        for at in end..self.tokens.len() {
            match self.tokens[at].kind {
                Kind::Space => self.tokens[at].text.clear(),
                _ if self.tokens[at].text.is_empty() => {}
                _ => break,
            }
        }
    }

    /// Replaces tokens with a text.
    pub fn replace(&mut self, begin: usize, end: usize, text: impl Into<String>) {
        self.clear(begin, end);
        self.tokens[begin].kind = Kind::Written;
        self.tokens[begin].text = text.into();
    }

    /// Returns the first token of an item, including its doc comments, attributes and `pub`.
    pub fn start_of_item(&self, item: usize) -> usize {
        let mut start = item;
        for at in (0..item).rev() {
            let it = &self.tokens[at];
            match it.kind {
                _ if it.text.is_empty() => {}
                Kind::Space => {}
                Kind::Comment if it.text.starts_with("///") => start = at,
                Kind::Word if it.text == "pub" => start = at,
                Kind::Word if self.is_in_pub(at) => {}
                Kind::Sign if (it.text == "(" || it.text == ")") && self.is_in_pub(at) => {}
                _ => break,
            }
        }
        start
    }

    /// Whether a token belongs to `(crate)` in `pub(crate)`.
    fn is_in_pub(&self, at: usize) -> bool {
        (at.saturating_sub(3)..=at).any(|it| {
            self.is_word(it, "pub")
                && (self.is_at(it + 1, &["(", "crate", ")"]) || self.is_at(it + 1, &["(", "super", ")"]))
        })
    }

    /// Returns the indentation of a token's line.
    pub fn indent(&self, at: usize) -> String {
        let before: String = self.tokens[..at].iter().map(|it| it.text.as_str()).collect();
        let line = before.rsplit('\n').next().unwrap_or("");
        line.chars().take_while(|it| *it == ' ').collect()
    }
}
