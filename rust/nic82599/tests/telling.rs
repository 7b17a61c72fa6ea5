//! What a program reports on standard error as it happens with NIC82599_TELL=1, and that it reports nothing without it.
//! A process reads the variable only once, so this test starts itself as the program, in a separate process.

use std::process::Command;
use std::{env, str};

use nic82599::{regs, Nic, Sizes};

const ASKED: &str = "NIC82599_TELL";
const IS_PROGRAM: &str = "NIC82599_TELLING_PROGRAM";
const PRINTED: [&str; 4] = [
    "stray: r 0x10148: this is FWSM, which the bench doesn't model: don't wait: a reset is done when the write returns",
    "1 frame was dropped: FCTRL.UPE was 0, no RAL and RAH with AV 1 matched; the last one was addressed to \
     02:00:00:00:00:09",
    "rx: fault queue 0 outside: RDT[0] 9 of 8 slots (RDLEN[0] / 16)",
    "frames dropped (filter): 2 in all",
];

/// Accesses a register that the bench lacks, receives two frames to another address, and writes a tail outside the
/// ring.
fn program() {
    let nic = Nic::open(Sizes { blocks: 1, ..Sizes::default() }).unwrap();
    let arrive = |frame: &[u8]| assert!(nic.arrive(frame).is_ok());
    nic.see32(0x10148);
    nic.write(regs::RXCTRL, 1);
    let mut frame = [0; 60];
    frame[..6].copy_from_slice(&[2, 0, 0, 0, 0, 9]);
    arrive(&frame);
    arrive(&frame);
    nic.write(regs::FCTRL, 0x200);
    nic.write(regs::RDLEN.at(0), 128);
    nic.write(regs::SRRCTL.at(0), 0x0200_0002);
    nic.write(regs::RXDCTL.at(0), regs::rxdctl::ENABLE);
    nic.settle(1).unwrap();
    nic.write(regs::RDT.at(0), 9);
    arrive(&[0; 60]);
    nic.settle(1).unwrap();
}

/// Returns the library's lines on the program's standard error, with this value of the variable.
fn output_of(given: Option<&str>) -> Vec<String> {
    let mut call = Command::new(env::current_exe().unwrap());
    call.args(["telling", "--exact", "--nocapture"]).env_remove(ASKED).env(IS_PROGRAM, "1");
    if let Some(word) = given {
        call.env(ASKED, word);
    }
    let made = call.output().unwrap();
    assert!(made.status.success(), "{made:?}");
    let lines = str::from_utf8(&made.stderr).unwrap().lines();
    lines.filter_map(|line| line.strip_prefix("nic82599: ")).map(String::from).collect()
}

#[test]
fn telling() {
    if env::var_os(IS_PROGRAM).is_some() {
        return program();
    }
    assert_eq!(output_of(Some("1")), PRINTED);
    for given in [None, Some(""), Some("0")] {
        assert!(output_of(given).is_empty(), "{given:?}");
    }
}
