//! Writes the plain edition: Rust without contracts, generated from the crates' sources.
//!
//!     eraser ROOT OUT                the edition of the repository ROOT, as one crate in the folder OUT
//!     eraser --controller ROOT OUT   the modules of the controller, for the pure Rust crate
//!     eraser --case FILE             the plain text of one source, on standard output
//!
//! It erases whatever only a proof reads (`ghosts`). It rewrites the forms that differ in Rust, each in its own
//! function (`rust`, `faults`, `exports`, `paths`). It doesn't guess: it refuses an unknown form (`known`) with its
//! file and line. Status 1: there is an unknown form, or a file can't be read or written. Status 2: wrong arguments.

#[path = "mod.rs"]
mod eraser;

use eraser::edition;
use eraser::fault::Fault;
use std::path::Path;
use std::process::ExitCode;

fn main() -> ExitCode {
    let words: Vec<String> = std::env::args().skip(1).collect();
    let words: Vec<&str> = words.iter().map(String::as_str).collect();
    let done = match words.as_slice() {
        ["--case", file] => case(Path::new(file)),
        ["--controller", root, out] => edition::write_controller(Path::new(root), Path::new(out)).map(|_| ()),
        [root, out] => edition::write(Path::new(root), Path::new(out)).map(|_| ()),
        _ => {
            eprintln!("eraser: expected ROOT OUT, --controller ROOT OUT, or --case FILE");
            return ExitCode::from(2);
        }
    };
    match done {
        Ok(()) => ExitCode::SUCCESS,
        Err(fault) => {
            eprintln!("{fault}");
            ExitCode::from(1)
        }
    }
}

fn case(path: &Path) -> Result<(), Fault> {
    let text = std::fs::read_to_string(path).map_err(|error| Fault::of(path, error))?;
    let name = path.file_name().map_or(String::new(), |it| it.to_string_lossy().into_owned());
    print!("{}", edition::case(&name, &text)?);
    Ok(())
}
