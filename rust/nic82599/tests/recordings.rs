//! Tests of recordings, in a separate process because a recording covers all controllers of a process.

use std::path::Path;
use std::{env, fs, process};

use nic82599::{record, regs, Error, Nic, Sizes};

#[test]
fn recordings() {
    let folder = env::temp_dir().join(format!("nic82599-{}", process::id()));
    fs::create_dir_all(&folder).unwrap();
    let path = folder.join("it");
    record(Some(&path)).unwrap();
    let nic = Nic::open(Sizes::default()).unwrap();
    nic.write(regs::RXCTRL, 1);
    nic.note("of queue\0 3 \u{fc}");
    nic.read(regs::SRRCTL.at(3));
    assert_eq!(record(Some(Path::new("/nowhere/it"))), Err(Error::NoRecording));
    assert_eq!(record(Some(Path::new("no\0name"))), Err(Error::NoRecording));
    record(None).unwrap();
    drop(nic);
    let text = fs::read_to_string(&path).unwrap();
    fs::remove_dir_all(&folder).unwrap();
    let lines = text.lines().map(|it| it.split('#').next().unwrap_or("").trim()).filter(|it| !it.is_empty());
    assert_eq!(lines.collect::<Vec<_>>(), ["w 0x03000 0x00000001", "r 0x010d4"], "{text}");
    assert!(text.contains("\n# note: of queue? 3 ??\nr 0x010d4"), "{text}");
    assert!(text.starts_with("#: nic vfs 0 fifo 64 blocks 256"));
}
