//! Adapts the kit's macros for use inside another crate.
//!
//! The edition exports the macros and calls them through the crate's root. A crate that includes modules written by its
//! build script can't call macros this way: Rust refuses to call a macro by a path if an included file exports it. In
//! such a crate, each macro becomes an item of its module, which the root imports, and the crate's users don't see it.

use super::fault::Fault;
use std::path::Path;

/// Precedes an exported macro.
const EXPORT: &str = "#[macro_export]";

/// Returns a file of the kit without exports, and the names of the macros that it exported. The file imports them at
/// its end.
pub fn kept_inside(path: &Path, text: &str) -> Result<(String, Vec<String>), Fault> {
    let (mut written, mut names) = (String::new(), Vec::new());
    let mut lines = text.lines().peekable();
    while let Some(line) = lines.next() {
        if line == EXPORT {
            let name =
                lines.peek().and_then(|it| it.strip_prefix("macro_rules! ")).and_then(|it| it.strip_suffix(" {"));
            names.push(name.ok_or_else(|| Fault::of(path, "an export of something that isn't a macro"))?.to_string());
        } else if !is_import(line) {
            written += &line.replace("pub use crate::{", "pub(crate) use crate::{");
            written += "\n";
        }
    }
    for name in &names {
        written += &format!("\npub(crate) use {name};\n");
    }
    Ok((written, names))
}

/// Whether a line imports an exported macro from the root into its own module.
fn is_import(line: &str) -> bool {
    let name = line.strip_prefix("pub use crate::").and_then(|it| it.strip_suffix(';'));
    name.map_or(false, |it| it.chars().all(|it| it.is_ascii_alphanumeric() || it == '_'))
}

/// Returns the root's imports of these macros of a file.
pub fn imports(path: &Path, names: &[String]) -> String {
    let module = path.with_extension("");
    let parts: Vec<_> = module.iter().map(|it| it.to_string_lossy()).filter(|it| it != "mod").collect();
    names.iter().map(|it| format!("pub(crate) use {}::{it};\n", parts.join("::"))).collect()
}

#[cfg(test)]
mod tests {
    use super::*;

    #[test]
    fn an_exported_macro() {
        let text =
            "/// A.\n#[macro_export]\nmacro_rules! a {\n    () => {};\n}\n\npub use crate::a;\npub use crate::{b};\n";
        let wanted = "/// A.\nmacro_rules! a {\n    () => {};\n}\n\npub(crate) use crate::{b};\n\npub(crate) use a;\n";
        let path = Path::new("kit/some.rs");
        let (written, names) = kept_inside(path, text).unwrap();
        assert_eq!((written.as_str(), names.as_slice()), (wanted, &["a".to_string()][..]));
        assert_eq!(imports(path, &names), "pub(crate) use kit::some::a;\n");
        assert_eq!(imports(Path::new("kit/mod.rs"), &names), "pub(crate) use kit::a;\n");
    }

    #[test]
    fn another_export() {
        assert!(kept_inside(Path::new("kit/some.rs"), "#[macro_export]\nfn a() {}\n").is_err());
    }
}
