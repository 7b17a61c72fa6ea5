//! Compares names and fields with the C header, and checks that the device has the registers.

mod common;

use std::collections::BTreeMap;
use std::fs;
use std::path::Path;

use nic82599::regs::{self, vf, *};
use nic82599::{Absent, Error, Nic, Sizes};

const MODULE: &str = include_str!("../src/regs.rs");
const DESCRIPTORS: &str = include_str!("../src/desc/fields.rs");

/// Returns the C header with this name, from the clone or the prefix that contains the crate; `None` if there is none.
fn header(name: &str) -> Option<String> {
    let here = Path::new(env!("CARGO_MANIFEST_DIR")).ancestors();
    let mut places = here.flat_map(|it| [it.join("c/include").join(name), it.join("include").join(name)]);
    places.find_map(|it| fs::read_to_string(it).ok())
}

/// Returns the definitions of a header's macros by name.
fn macros(name: &str) -> Option<BTreeMap<String, String>> {
    let text = header(name)?;
    let lines = text.lines().filter_map(|line| line.strip_prefix("#define ")?.split_once(' '));
    Some(lines.map(|(name, body)| (name.to_owned(), body.to_owned())).collect())
}

/// Returns the number in `UINT32_C(0x..)` or `UINT64_C(0x..)`.
fn number(text: &str) -> u64 {
    let digits = text.split("_C(0x").nth(1).unwrap_or_else(|| panic!("{text}"));
    u64::from_str_radix(digits.split(')').next().unwrap(), 16).unwrap()
}

fn parsed(text: &str) -> u64 {
    match text.trim().strip_prefix("0x") {
        Some(digits) => u64::from_str_radix(digits, 16).unwrap(),
        None => text.trim().parse().unwrap(),
    }
}

/// Returns the numbers in a call's arguments.
fn numbers(text: &str) -> Vec<u64> {
    let inside = text.rsplit_once('(').unwrap().1.split(')').next().unwrap();
    inside.split(',').map(parsed).collect()
}

#[test]
fn addresses_are_those_of_the_header() {
    let macros = match macros("nic82599_regs.h") {
        Some(macros) => macros,
        None => return,
    };
    for (name, registers) in regs::ALL {
        let last = registers.count() - 1;
        let got: Vec<u64> = [0, last].map(|it| u64::from(registers.at(it).address())).to_vec();
        if last == 0 {
            assert_eq!(number(&macros[&format!("NIC_{name}")]), got[0], "{name}");
            continue;
        }
        assert_eq!(macros[&format!("NIC_{name}_COUNT")], (last + 1).to_string(), "{name}");
        let body = &macros[&format!("NIC_{name}(i)")];
        let (first, end) = match body.strip_prefix("nic_in_runs") {
            None => {
                let stride = number(body.rsplit_once('+').unwrap().1);
                (number(body), number(body) + stride * u64::from(last))
            }
            Some(_) => {
                let it = numbers(&body.replace(", (i))", ")"));
                (it[0], it[3] + it[1] * (u64::from(last) - it[2]))
            }
        };
        assert_eq!(got, [first, end], "{name}");
    }
}

/// A field: its module's name, its own name, the mask, and the lowest bit if it has several.
type FieldOf = (String, String, u64, Option<u64>);

/// Returns the fields that src/regs.rs defines.
fn fields_of_registers() -> Vec<FieldOf> {
    let list = MODULE.split("\nfields! {\n").nth(1).unwrap().split("\n}\n").next().unwrap();
    let entries = list.split(';').filter_map(|it| it.trim().split_once(": "));
    let of_entry = |(head, rest): (&str, &str)| {
        let module = head.split('"').nth(1).unwrap().to_owned();
        let field = move |text: &str| {
            let words: Vec<&str> = text.split_whitespace().collect();
            let bits: Vec<u64> = words[1..].iter().map(|it| parsed(it)).collect();
            let low = *bits.last().unwrap();
            let mask = ((1 << (bits[0] - low + 1)) - 1) << low;
            (module.clone(), words[0].to_owned(), mask, Some(low).filter(|_| bits.len() > 1))
        };
        rest.split(',').map(field).collect::<Vec<_>>()
    };
    entries.flat_map(of_entry).collect()
}

/// Returns the fields in the generated modules of descriptors.
fn fields_of_descriptors() -> Vec<FieldOf> {
    let (mut module, mut found) = (String::new(), Vec::new());
    for line in DESCRIPTORS.lines() {
        if let Some(name) = line.strip_prefix("pub mod ") {
            module = name.trim_end_matches(" {").to_uppercase();
        }
        if let Some((name, rest)) = line.strip_prefix("    pub const ").and_then(|it| it.split_once(": ")) {
            if rest.contains("Field::new") {
                let numbers = numbers(rest);
                found.push((module.clone(), name.to_owned(), numbers[0], Some(numbers[1])));
            } else if let Some(bits) = rest.split("= 0x").nth(1) {
                let bits = u64::from_str_radix(bits.trim_end_matches(';'), 16).unwrap();
                found.push((module.clone(), name.to_owned(), bits, None));
            }
        }
    }
    found
}

#[test]
fn fields_are_those_of_the_header() {
    let files = [("nic82599_regs.h", fields_of_registers(), 250), ("nic82599_desc.h", fields_of_descriptors(), 20)];
    for (file, fields, at_least) in files {
        let macros = match macros(file) {
            Some(macros) => macros,
            None => return,
        };
        assert!(fields.len() > at_least, "{file}: {}", fields.len());
        for (module, name, mask, low) in &fields {
            let macro_name = format!("NIC_{module}_{name}");
            assert_eq!(number(&macros[&macro_name]), *mask, "{macro_name}");
            let found = macros.get(&format!("{macro_name}_IS(v)"));
            assert_eq!(found.is_some(), low.is_some(), "{macro_name}");
            if let (Some(found), Some(low)) = (found, low) {
                assert!(found.contains(&format!("<< {low} & ")), "{macro_name}");
            }
        }
        let tests = macros.keys().filter(|it| it.ends_with("_IS(v)")).count();
        assert_eq!(fields.iter().filter(|it| it.3.is_some()).count(), tests, "{file}");
    }
}

#[test]
fn offsets_are_those_of_the_header() {
    let macros = match macros("nic82599_regs.h") {
        Some(macros) => macros,
        None => return,
    };
    let module = MODULE.split("pub mod vf {").nth(1).unwrap();
    let mut count = 0;
    for line in module.lines().filter_map(|line| line.trim().strip_prefix("of_function! { ")) {
        let words: Vec<&str> = line.trim_end_matches(" }").split_whitespace().collect();
        let (name, got) = (words[0], words[2..].iter().map(|it| parsed(it)).collect::<Vec<u64>>());
        let plain = [format!("NIC_{name}"), format!("NIC_{name}_OFFSET")];
        match macros.get(&format!("NIC_{name}(x)")) {
            Some(body) => assert_eq!(got[..2], [number(body), number(body.rsplit_once('+').unwrap().1)], "{name}"),
            None => assert_eq!(got, [number(macros.get(&plain[1]).unwrap_or_else(|| &macros[&plain[0]]))], "{name}"),
        }
        count += 1;
    }
    let text = header("nic82599_regs.h").unwrap();
    let offsets = text.split("offsets of a virtual function").last().unwrap();
    assert_eq!(count, offsets.matches("#define").count());
    assert_eq!((vf::VFRDT.at(1).offset(), vf::VFRDT.count(), vf::VTIVAR.count()), (0x1058, 8, 4));
}

#[test]
fn the_device_has_each() {
    let nic = Nic::open(Sizes { vfs: 63, ..Sizes::default() }).unwrap();
    let mut count = 0;
    for (name, registers) in regs::ALL {
        for register in (0..registers.count()).filter_map(|it| registers.get(it)) {
            assert_eq!(nic.peek32(register.address()), Ok(nic.peek(register)), "{name}");
            count += 1;
        }
    }
    assert!(count > 3000 && count < common::addresses().len());
    for address in common::addresses() {
        assert!(nic.peek32(address).is_ok(), "0x{address:05x}");
    }
    let stray: Vec<u32> = (0..0x14000).step_by(4).filter(|&it| nic.peek32(it).is_err()).collect();
    assert_eq!(stray.len() + common::addresses().len(), 0x5000);
}

#[test]
fn a_function_has_as_many_as_its_mode_gives() {
    let nic = Nic::open(Sizes { vfs: 2, ..Sizes::default() }).unwrap();
    for (mode, queues) in [(1, 8), (2, 4), (3, 2)] {
        nic.write(GCR_EXT, mode);
        for queue in 0..vf::VFRDT.count() {
            let read = nic.vf(1).peek(vf::VFRDT.at(queue));
            let refused = Error::Stray {
                at: vf::VFRDT.at(queue).offset(),
                word: None,
                why: Absent::Queue { number: 1, queues: queues as u8 },
            };
            assert_eq!(read, if queue < queues { Ok(0) } else { Err(refused) }, "mode {mode}, queue {queue}");
        }
        for vector in 0..vf::VTIVAR.count() {
            assert_eq!(nic.vf(1).peek(vf::VTIVAR.at(vector)).is_ok(), vector < queues / 2, "mode {mode}");
        }
        assert!((0..vf::VFMBMEM.count()).all(|it| nic.vf(1).peek(vf::VFMBMEM.at(it)).is_ok()));
    }
    nic.write(GCR_EXT, 0);
    let why = Absent::Pool { number: 1, pools: 0 };
    assert_eq!(nic.vf(1).peek(vf::VTEIMS), Err(Error::Stray { at: 0x108, word: None, why }));
}

#[test]
fn indices_are_tested() {
    for (name, registers) in regs::ALL {
        assert!(registers.get(registers.count()).is_none() && registers.get(u16::MAX).is_none(), "{name}");
    }
    assert!(vf::VFRDT.get(8).is_none() && vf::VFMBMEM.get(15).is_some());
    assert_eq!((EITR.at(23).address(), EITR.at(24).address()), (0x0087C, 0x12300));
}

#[test]
#[should_panic(expected = "no register has this index")]
fn an_index_that_is_too_large_ends_the_program() {
    RDT.at(128);
}

#[test]
#[should_panic(expected = "no function has a register with this index")]
fn an_index_that_no_function_has_ends_it_too() {
    vf::VFRDT.at(8);
}
