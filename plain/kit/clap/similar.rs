//! Finds the names close to a word, by Jaro similarity: the share of letters that the name and the word both have near
//! the same position, reduced for letters in a different order.

use super::super::alloc::{AllocError, Global};
use super::super::vec::Vec;

/// Above this similarity, names are close.
const CLOSE: f64 = 0.7;

/// Returns the similarity of two words, from 0 to 1.
fn likeness(alloc: Global, one: &str, other: &str) -> Result<f64, AllocError> {
    let (one, other) = (letters(alloc, one)?, letters(alloc, other)?);
    if one.is_empty() || other.is_empty() {
        return Ok(if one.len() == other.len() { 1.0 } else { 0.0 });
    }
    let reach = (one.len().max(other.len()) / 2).saturating_sub(1);
    let mut is_taken = Vec::from_elem(alloc, false, other.len())?;
    let mut common = Vec::with_capacity(alloc, one.len())?;
    for (at, letter) in one.iter().enumerate() {
        let (low, high) = (at.saturating_sub(reach), (at + reach + 1).min(other.len()));
        if let Some(place) = (low..high).find(|&k| !is_taken[k] && other[k] == *letter) {
            is_taken[place] = true;
            common.push_reserved(*letter);
        }
    }
    if common.is_empty() {
        return Ok(0.0);
    }
    let taken = other.iter().zip(&is_taken).filter(|it| *it.1).map(|it| it.0);
    let moved = common.iter().zip(taken).filter(|it| it.0 != it.1).count() / 2;
    let count = common.len() as f64;
    Ok((count / one.len() as f64 + count / other.len() as f64 + (count - moved as f64) / count) / 3.0)
}

fn letters(alloc: Global, word: &str) -> Result<Vec<char>, AllocError> {
    let mut all = Vec::with_capacity(alloc, word.len())?;
    for letter in word.chars() {
        all.push_reserved(letter);
    }
    Ok(all)
}

/// Returns the names that are close to a word, the closest last; equally close ones keep their order.
pub(super) fn similar<'a>(
    alloc: Global,
    word: &str,
    names: impl Iterator<Item = &'a str>,
) -> Result<Vec<&'a str>, AllocError> {
    let mut found: Vec<(f64, &'a str)> = Vec::new(alloc);
    for name in names {
        let like = likeness(alloc, word, name)?;
        if like > CLOSE {
            let place = found.iter().filter(|it| it.0 <= like).count();
            found.insert(place, (like, name))?;
        }
    }
    let mut names = Vec::with_capacity(alloc, found.len())?;
    for (_, name) in found {
        names.push_reserved(name);
    }
    Ok(names)
}

#[cfg(test)]
mod tests {
    use super::*;

    #[test]
    fn words_are_as_like_as_they_are() {
        for (one, other, wanted) in [
            ("martha", "marhta", 0.944_444),
            ("dixon", "dicksonx", 0.766_667),
            ("jellyfish", "smellyfish", 0.896_296),
            ("a", "a", 1.0),
            ("a", "b", 0.0),
            ("", "", 1.0),
            ("", "a", 0.0),
        ] {
            assert!((likeness(Global, one, other).unwrap() - wanted).abs() < 1e-6, "{one} {other}");
        }
    }
}
