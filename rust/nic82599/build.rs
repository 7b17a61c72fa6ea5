//! Finds the library that `make -C c` or an installation provides, and links it. It looks in the folder that
//! NIC82599_DIR names (the archive's own folder, or a prefix with the archive in `lib` or in Debian's multiarch
//! folder); in `c/out` of the clone that contains this crate, building it if necessary; in the prefix that contains
//! this crate; in the folder that pkg-config reports. A packed crate contains the library's sources and builds them
//! unless pkg-config offers a library of the same version. It prefers the archive to the shared library, so that a
//! program needs no other file.
//!
//! Without a library, compiling the crate fails with the reason; its documentation still builds.

use std::env;
use std::fs;
use std::io;
use std::path::{Path, PathBuf};
use std::process::Command;

const HELP: &str = "run `make -C c` in a clone, unpack a release, or set NIC82599_DIR to the library's folder";

/// Each feature that has a separate archive, with the archive's name. An archive precedes the ones that it calls.
const FEATURES: [(&str, &str); 2] = [("drive", "nic82599_drive"), ("explore", "nic82599_explore")];

fn has_feature(name: &str) -> bool {
    env::var_os(format!("CARGO_FEATURE_{}", name.to_uppercase())).is_some()
}

fn out_dir() -> PathBuf {
    PathBuf::from(env::var_os("OUT_DIR").unwrap_or_default())
}

/// Reruns this script when the file changes. A file that the script itself built has just changed, so it isn't watched.
fn watch(file: &Path) {
    if !file.starts_with(out_dir()) {
        println!("cargo:rerun-if-changed={}", file.display());
    }
}

fn main() {
    println!("cargo:rerun-if-env-changed=NIC82599_DIR");
    println!("cargo:rerun-if-env-changed=PKG_CONFIG_PATH");
    let found = library().and_then(|(folder, version)| {
        check_version(&folder, version)?;
        link(&folder)
    });
    let text = match found {
        Ok(()) => String::new(),
        Err(why) => {
            // (this file never exists, so cargo reruns the script on every build)
            println!("cargo:rerun-if-changed=no-library");
            format!("compile_error!({:?});\n", format!("nic82599: {why}"))
        }
    };
    fs::write(out_dir().join("library.rs"), text).expect("the build folder must be writable");
}

/// Returns the library's folder, and the version of its headers if known.
fn library() -> Result<(PathBuf, Option<String>), String> {
    if let Some(given) = env::var_os("NIC82599_DIR") {
        let given = PathBuf::from(given);
        let places = [given.clone(), given.join("lib"), given.join(multiarch()), given.join("c/out")];
        return match places.into_iter().find(|it| has_library(it)) {
            Some(folder) => Ok((folder.clone(), version_beside(&folder))),
            None => Err(format!("no library in {} (NIC82599_DIR): {HELP}", given.display())),
        };
    }
    let here = PathBuf::from(env::var_os("CARGO_MANIFEST_DIR").unwrap_or_default());
    let around =
        here.ancestors().skip(1).take(5).flat_map(|it| [it.join("c/out"), it.join("lib"), it.join(multiarch())]);
    if let Some(folder) = around.into_iter().find(|it| has_library(it) && version_beside(it).is_some()) {
        return Ok((folder.clone(), version_beside(&folder)));
    }
    let is_here = env::var_os("TARGET") == env::var_os("HOST");
    let clone = here.ancestors().skip(1).take(5).find(|it| it.join("c/take_crate").exists());
    if let Some(clone) = clone.filter(|_| is_here) {
        make(clone, &[])?;
        let folder = clone.join("c/out");
        return Ok((folder.clone(), version_beside(&folder)));
    }
    let installed = by_pkg_config();
    let is_of_this_version = matches!(&installed, Some((_, version)) if *version == env::var("CARGO_PKG_VERSION").ok());
    let sources = here.join("sources");
    if !is_of_this_version && is_here && sources.join("c/take_crate").exists() {
        return of_sources(&sources);
    }
    installed.ok_or_else(|| format!("no controller library: {HELP}"))
}

/// Builds the library from the sources in a packed crate. make writes to a copy, so the sources stay unchanged.
fn of_sources(sources: &Path) -> Result<(PathBuf, Option<String>), String> {
    println!("cargo:rerun-if-changed={}", sources.display());
    let copy = out_dir().join("sources");
    copy_folder(sources, &copy).map_err(|why| format!("can't copy {} ({why})", sources.display()))?;
    make(&copy, &archives())?;
    let folder = copy.join("c/out");
    Ok((folder.clone(), version_beside(&folder)))
}

fn copy_folder(from: &Path, to: &Path) -> io::Result<()> {
    fs::create_dir_all(to)?;
    for entry in fs::read_dir(from)? {
        let entry = entry?;
        let copy = to.join(entry.file_name());
        if entry.file_type()?.is_dir() {
            copy_folder(&entry.path(), &copy)?;
        } else {
            fs::copy(entry.path(), copy)?;
        }
    }
    Ok(())
}

/// The archives that the enabled features need, as make targets.
fn archives() -> Vec<String> {
    let more = FEATURES.iter().filter(|(feature, _)| has_feature(feature)).map(|(_, name)| *name);
    more.chain(["nic82599"]).map(|name| format!("out/lib{name}.a")).collect()
}

/// Builds the library of a clone, or some of its targets, with `make -C c`. It contains the plain edition, compiled by
/// the rustc that cargo uses.
fn make(clone: &Path, targets: &[String]) -> Result<(), String> {
    let mut command = Command::new("make");
    command.arg("-C").arg(clone.join("c")).args(targets);
    for name in ["MAKEFLAGS", "MFLAGS", "MAKELEVEL", "CARGO_MAKEFLAGS", "TARGET", "OUT_DIR", "V"] {
        command.env_remove(name);
    }
    let output = command.output().map_err(|why| format!("can't start make ({why}): {HELP}"))?;
    if output.status.success() {
        return Ok(());
    }
    Err(format!("`make -C c` in {} fails:\n{}", clone.display(), String::from_utf8_lossy(&output.stderr).trim()))
}

/// Debian's name for this machine's library folder within a prefix.
fn multiarch() -> String {
    format!("lib/{}-linux-gnu", env::var("CARGO_CFG_TARGET_ARCH").unwrap_or_default())
}

fn has_library(folder: &Path) -> bool {
    folder.join("libnic82599.a").exists() || folder.join("libnic82599.so").exists()
}

/// The version in the headers of a library. The headers are beside `out` in a clone and beside `lib` in a prefix; the
/// library's folder may be a multiarch folder inside `lib`.
fn version_beside(folder: &Path) -> Option<String> {
    let mut around = folder.ancestors().skip(1).take(2).map(|it| it.join("include/nic82599_version.h"));
    let header = around.find(|it| it.exists())?;
    let text = fs::read_to_string(&header).ok()?;
    watch(&header);
    Some(text.split('"').nth(1)?.to_owned())
}

fn asked(word: &str) -> Option<String> {
    // (by default pkg-config leaves out the system folders)
    let output =
        Command::new("pkg-config").env("PKG_CONFIG_ALLOW_SYSTEM_LIBS", "1").args([word, "nic82599"]).output().ok()?;
    let text = String::from_utf8(output.stdout).ok()?;
    if output.status.success() {
        Some(text.trim().to_owned())
    } else {
        None
    }
}

fn by_pkg_config() -> Option<(PathBuf, Option<String>)> {
    let words = asked("--libs-only-L")?;
    let folder = words.split_whitespace().find_map(|it| it.strip_prefix("-L"))?;
    Some((PathBuf::from(folder), asked("--modversion")))
}

/// Rejects a library of another version: its calls and structs may differ.
fn check_version(folder: &Path, found: Option<String>) -> Result<(), String> {
    let own = env::var("CARGO_PKG_VERSION").unwrap_or_default();
    match found.filter(|it| *it != own) {
        Some(other) => {
            Err(format!("the library in {} has version {other}, but this crate has {own}", folder.display()))
        }
        None => Ok(()),
    }
}

/// Links only the needed members of each archive: the explorer's archive also contains the library's memory calls.
/// (By default, Rust 1.63 would link the whole archive into tests.)
fn link(folder: &Path) -> Result<(), String> {
    println!("cargo:rustc-link-search=native={}", folder.display());
    let archive = folder.join("libnic82599.a");
    for (feature, name) in FEATURES {
        if !has_feature(feature) {
            continue;
        }
        let more = folder.join(format!("lib{name}.a"));
        if !more.exists() || !archive.exists() {
            let place = folder.display();
            return Err(format!("no lib{name}.a in {place}, which the feature {feature} needs: {HELP}"));
        }
        watch(&more);
        println!("cargo:rustc-link-lib=static:-whole-archive={name}");
    }
    if archive.exists() {
        watch(&archive);
        println!("cargo:rustc-link-lib=static:-whole-archive=nic82599");
    } else {
        println!("cargo:rustc-link-lib=dylib=nic82599");
    }
    Ok(())
}
