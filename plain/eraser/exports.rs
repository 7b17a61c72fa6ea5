//! The C interface.

use super::fault::Fault;
use super::layout::{split, width, WIDTH};
use super::source::Source;

/// Rewrites `#[unsafe(no_mangle)] pub extern "C" fn`: the function becomes a Rust function, and a module at the end of
/// the file gets a C function that wraps it. In C, a slice is a pointer and a length, and there is no allocator
/// parameter. No panic leaves the wrapper.
pub fn rewrite(source: &mut Source) -> Result<(), Fault> {
    let mut calls = Vec::new();
    for at in 0..source.tokens.len() {
        let item = match source.past(at, &["#", "[", "unsafe", "(", "no_mangle", ")", "]"]) {
            Some(past) if source.at(at) == "#" => source.next(past),
            _ => continue,
        };
        let external = source.after(item);
        let abi = source.after(external);
        if source.at(item) != "pub" || source.at(external) != "extern" || source.at(abi) != "\"C\"" {
            return Err(source.fault(at, "an export whose form isn't `pub extern \"C\" fn`"));
        }
        source.erase_line(at, item);
        let function = source.after(abi);
        source.clear(external, function);
        let name = source.after(function);
        let open = source.after(name);
        let close = source.closing(open)?;
        let body = source.find(close, &["{"])?;
        let parameters = split(&source.code(open + 1, close).replace('\n', " "));
        calls.push(call(source.at(name), &parameters, &source.code(close + 1, body)));
    }
    if let (false, Some(last)) = (calls.is_empty(), source.tokens.last_mut()) {
        let calls = calls.join("\n");
        last.text = format!("{}{HEAD}{calls}}}\n", last.text.trim_end());
    }
    Ok(())
}

const HEAD: &str = "

/// The calls for C.
#[cfg(feature = \"c\")]
#[allow(unsafe_code)]
mod for_c {
    use super::*;
    use crate::kit::c;

";

/// Returns the C function that wraps a function.
fn call(name: &str, parameters: &[String], gives: &str) -> String {
    let (mut taken, mut slices, mut passed) = (Vec::new(), String::new(), Vec::new());
    let mut guard = ("alone", String::new());
    for parameter in parameters {
        let (what, kind) = parameter.split_once(": ").unwrap_or((parameter, ""));
        let slice = match (kind.strip_prefix("&mut ["), kind.strip_prefix("&[")) {
            (Some(of), _) => Some(("mut", "slice_mut", of)),
            (_, Some(of)) => Some(("const", "slice", of)),
            _ => None,
        };
        passed.push(if kind == "Global" { kind.to_string() } else { what.to_string() });
        if let Some((pointer, function, of)) = slice {
            let of = of.trim_end_matches(']');
            taken.extend([format!("{what}: *{pointer} {of}"), "length: usize".to_string()]);
            slices += "        // SAFETY: The header requires a pointer to this many elements, or a length of 0.\n";
            slices += &format!("        let {what} = unsafe {{ c::{function}({what}, length) }};\n");
        } else if kind != "Global" {
            taken.push(parameter.clone());
        }
        if guard.0 == "alone" {
            match kind {
                "&mut Handle" | "&mut KeptHandle" => guard = ("guarded", what.to_string()),
                "Handle" | "KeptHandle" => guard = ("ending", what.to_string()),
                _ => {}
            }
        }
    }
    let gives = if gives.is_empty() { String::new() } else { format!(" {gives}") };
    let head = format!("    pub unsafe extern \"C\" fn {name}({}){gives} {{\n", taken.join(", "));
    let (before, closure) = match guard {
        ("alone", _) => (String::new(), "||".to_string()),
        (_, what) => (format!("{what}, "), format!("|{what}|")),
    };
    let inside = body(guard.0, &before, &closure, name, &passed);
    format!("    #[no_mangle]\n{head}{slices}{inside}    }}\n")
}

/// Returns the call inside its guard, on one line or on several if it is too long.
fn body(guard: &str, before: &str, closure: &str, name: &str, passed: &[String]) -> String {
    if closure == format!("|{}|", passed.join(", ")) {
        return format!("        c::{guard}({before}super::{name})\n");
    }
    let front = format!("        c::{guard}({before}{closure} ");
    let line = format!("{front}super::{name}({}))\n", passed.join(", "));
    if width(line.trim_end()) <= WIDTH {
        return line;
    }
    let line = format!("            super::{name}({})\n", passed.join(", "));
    if width(line.trim_end()) <= WIDTH {
        return format!("{front}{{\n{line}        }})\n");
    }
    let parts: Vec<String> = passed.iter().map(|it| format!("                {it},\n")).collect();
    format!("{front}{{\n            super::{name}(\n{}            )\n        }})\n", parts.concat())
}
