//! The edition: its crates, and the files generated from them.

use super::fault::Fault;
use super::layout::laid_out;
use super::source::Source;
use super::{exports, faults, ghosts, known, macros, paths, rust, uses};
use std::collections::BTreeSet;
use std::fs;
use std::path::{Path, PathBuf};
use std::thread;

/// A crate and the libraries that it depends on.
struct Layer {
    name: String,
    libraries: Vec<String>,
}

/// A file of the edition: its path below the edition's folder, and its text.
type File = (PathBuf, String);

/// Writes a repository's edition to a folder. Returns the number of files.
pub fn write(root: &Path, out: &Path) -> Result<usize, Fault> {
    let layers = layers(root)?;
    let mut files = modules_of(root, &layers)?;
    let head = read(&root.join("plain/head.rs"))?;
    files.push((PathBuf::from("src/lib.rs"), format!("{head}\n{}", modules(&layers, "pub "))));
    files.push((PathBuf::from("src/alone.rs"), alone(&head, &layers)));
    files.push((PathBuf::from("src/main.rs"), read(&root.join("plain/main.rs"))?));
    files.push((PathBuf::from("Cargo.toml"), CARGO.replace("VERSION", read(&root.join("VERSION"))?.trim())));
    files.push((PathBuf::from("rustfmt.toml"), "style_edition = \"2024\"\n".to_string()));
    put(&files, out)
}

/// The crate with the controller. The pure Rust crate consists of this crate and everything that it depends on.
const CONTROLLER: &str = "card";

/// Writes the controller's modules to a folder, together with `modules.rs`, which declares them in a crate's root. The
/// modules refer to each other by `crate::`. Returns the number of files.
pub fn write_controller(root: &Path, out: &Path) -> Result<usize, Fault> {
    let mut layers = layers(root)?;
    let inside = below(&layers, CONTROLLER);
    layers.retain(|it| inside.contains(&it.name));
    let mut files = modules_of(root, &layers)?;
    let names: BTreeSet<&str> = layers.iter().map(|it| it.name.as_str()).collect();
    let mut text: String = names.iter().map(|it| format!("{QUIET}mod {it};\n")).collect();
    for (path, source) in &mut files {
        *path = path.strip_prefix("src").map(PathBuf::from).unwrap_or_default();
        if path.starts_with("kit") {
            let (written, macros) = macros::kept_inside(path, source)?;
            *source = written;
            text += &macros::imports(path, &macros).replace("pub(crate)", &format!("{QUIET}pub(crate)"));
        }
    }
    let text = format!("extern crate alloc;\n\n{QUIET}#[macro_use]\nmod kit;\n{text}");
    files.push((PathBuf::from("modules.rs"), text));
    put(&files, out)
}

/// Precedes each module inside another crate, because lints would require changes to sources that are proved in their
/// current form.
const QUIET: &str = "#[allow(warnings, clippy::all)]\n";

/// Returns the files of these crates and of the kit.
fn modules_of(root: &Path, layers: &[Layer]) -> Result<Vec<File>, Fault> {
    let by_hand = copied(&root.join("plain/instead"), Path::new("src"))?;
    let mut files = files_of_crates(root, layers, &by_hand)?;
    files.extend(copied(&root.join("plain/kit"), Path::new("src/kit"))?);
    Ok(files)
}

/// Writes files below a folder. Returns their number.
fn put(files: &[File], out: &Path) -> Result<usize, Fault> {
    for (path, text) in files {
        let to = out.join(path);
        if let Some(folder) = to.parent() {
            fs::create_dir_all(folder).map_err(|error| Fault::of(folder, error))?;
        }
        fs::write(&to, text).map_err(|error| Fault::of(&to, error))?;
    }
    Ok(files.len())
}

/// Returns the plain text of an example case: a source of a crate `case` with the library `below`.
pub fn case(path: &str, text: &str) -> Result<String, Fault> {
    erased(path, text, &Layer { name: "case".to_string(), libraries: vec!["below".to_string()] })
}

fn read(path: &Path) -> Result<String, Fault> {
    fs::read_to_string(path).map_err(|error| Fault::of(path, error))
}

/// Returns the crates in `crates.txt`, lowest first.
fn layers(root: &Path) -> Result<Vec<Layer>, Fault> {
    let path = root.join("crates.txt");
    let text = read(&path)?;
    let mut found = Vec::new();
    for (at, line) in text.lines().enumerate() {
        let line = line.split('#').next().unwrap_or("").trim();
        if line.is_empty() {
            continue;
        }
        let (front, libraries) = line.split_once(':').ok_or_else(|| Fault::at("crates.txt", at + 1, "no colon"))?;
        let name = front.split_whitespace().next().unwrap_or("").to_string();
        found.push(Layer { name, libraries: libraries.split_whitespace().map(str::to_string).collect() });
    }
    Ok(found)
}

/// Returns a crate by name, and everything that it depends on.
fn below(layers: &[Layer], name: &str) -> BTreeSet<String> {
    let mut found = BTreeSet::new();
    let mut left = vec![name.to_string()];
    while let Some(name) = left.pop() {
        if let Some(layer) = layers.iter().find(|it| it.name == name) {
            if found.insert(name) {
                left.extend(layer.libraries.clone());
            }
        }
    }
    found
}

/// Returns the modules of the crate's root. Some exist only for the program, for the C library, or for tests.
fn modules(layers: &[Layer], visibility: &str) -> String {
    let (program, library) = (below(layers, "nicbench"), below(layers, "nic82599_c"));
    let mut names: Vec<&str> = layers.iter().map(|it| it.name.as_str()).collect();
    names.sort_unstable();
    let mut text = String::new();
    for name in names {
        match (program.contains(name), library.contains(name)) {
            (true, true) => {}
            (true, false) => text += "#[cfg(feature = \"bench\")]\n",
            (false, true) => text += "#[cfg(feature = \"c\")]\n",
            (false, false) => text += "#[cfg(feature = \"tests\")]\n",
        }
        text += &format!("{visibility}mod {name};\n");
    }
    text
}

/// Returns the program as one crate, so that only what it calls is compiled.
fn alone(head: &str, layers: &[Layer]) -> String {
    let head = head.replacen("#![", "#![cfg_attr(unix, no_main)]\n#![", 1).replace("deny(unsafe_code, ", "deny(");
    format!("{head}\n{}\nprogram!(nicbench);\n", modules(layers, ""))
}

const CARGO: &str = "# Written by dev/plain.
[package]
name = \"nic82599\"
version = \"VERSION\"
edition = \"2021\"
rust-version = \"1.63\"

[features]
default = [\"bench\"]
# The program nicbench.
bench = []
# The calls for C.
c = []
# The crates of tests.
tests = [\"bench\"]

[[bin]]
name = \"nicbench\"
path = \"src/main.rs\"
required-features = [\"bench\"]

[profile.release]
opt-level = 2
overflow-checks = true
";

/// Returns the files of all crates, lowest first. Each crate has a thread. If there are several faults, the lowest
/// crate's is reported.
fn files_of_crates(root: &Path, layers: &[Layer], by_hand: &[File]) -> Result<Vec<File>, Fault> {
    let made: Vec<Result<Vec<File>, Fault>> = thread::scope(|scope| {
        let running: Vec<_> = layers.iter().map(|it| scope.spawn(move || files_of_crate(root, it, by_hand))).collect();
        running.into_iter().map(|it| it.join().expect("a thread ends without a panic")).collect()
    });
    let mut files = Vec::new();
    for it in made {
        files.extend(it?);
    }
    Ok(files)
}

/// Returns the files of a crate, each erased or replaced by a handwritten file.
fn files_of_crate(root: &Path, layer: &Layer, by_hand: &[File]) -> Result<Vec<File>, Fault> {
    let folder = root.join("crates").join(&layer.name).join("src");
    let mut files = Vec::new();
    for path in sorted(&folder)? {
        let name = path.file_stem().map_or(String::new(), |it| it.to_string_lossy().into_owned());
        if path.extension().map_or(true, |it| it != "rt") {
            return Err(Fault::of(&path, "this file is in a source folder, but isn't a source"));
        }
        let file = if ["lib", "main"].contains(&name.as_str()) { "mod" } else { &name };
        let to = Path::new("src").join(&layer.name).join(format!("{file}.rs"));
        if let Some(file) = by_hand.iter().find(|it| it.0 == to) {
            files.push(file.clone());
            continue;
        }
        let shown = format!("crates/{}/src/{name}.rt", layer.name);
        files.push((to, erased(&shown, &read(&path)?, layer)?));
    }
    let all = Path::new("src").join(&layer.name);
    match by_hand.iter().find(|it| it.0.starts_with(&all) && !files.contains(it)) {
        Some((path, _)) => Err(Fault::of(path, "plain/instead has this file, but the crate has no such source")),
        None => Ok(files),
    }
}

/// Returns the plain text of a source.
fn erased(path: &str, text: &str, layer: &Layer) -> Result<String, Fault> {
    let mut source = Source::new(path, text)?;
    ghosts::erase(&mut source)?;
    known::check(&source)?;
    paths::check(&source)?;
    paths::rewrite(&mut source, &layer.name, &layer.libraries);
    faults::rewrite(&mut source)?;
    exports::rewrite(&mut source)?;
    rust::rewrite(&mut source)?;
    let prelude = paths::prelude(&source);
    Ok(laid_out(&uses::ordered(&laid_out(&source.text()), &prelude)))
}

/// Returns the files of a folder and its subfolders, with their paths relative to another folder.
fn copied(from: &Path, to: &Path) -> Result<Vec<File>, Fault> {
    let mut files = Vec::new();
    for path in sorted(from)? {
        let name = path.file_name().map(PathBuf::from).unwrap_or_default();
        if path.is_dir() {
            files.extend(copied(&path, &to.join(name))?);
        } else if path.extension().map_or(false, |it| it == "rs") {
            files.push((to.join(name), read(&path)?));
        }
    }
    Ok(files)
}

/// Returns a folder's entries in order; none if the folder doesn't exist.
fn sorted(folder: &Path) -> Result<Vec<PathBuf>, Fault> {
    let mut found = Vec::new();
    if folder.is_dir() {
        for it in fs::read_dir(folder).map_err(|error| Fault::of(folder, error))? {
            found.push(it.map_err(|error| Fault::of(folder, error))?.path());
        }
    }
    found.sort();
    Ok(found)
}
