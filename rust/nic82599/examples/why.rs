//! A driver that forgets to write a register receives nothing and sees no error. `Nic::why` reports the cause.

use nic82599::desc::Descriptor;
use nic82599::regs::*;
use nic82599::{Error, Nic, Register, Sizes};

/// Sets up queue 3 correctly, except for one register.
fn set_up(nic: &Nic, forgotten: Option<Register>) {
    let writes = [
        (RXCTRL, rxctrl::RXEN),
        (FCTRL, fctrl::UPE),
        (MRQC, mrqc::MRQE.is(1) | mrqc::IPV4),
        (RETA.at(0), reta::ENTRY_0.is(3)),
        (RDLEN.at(3), 128),
        (SRRCTL.at(3), srrctl::DESCTYPE.is(1) | srrctl::BSIZEPACKET.is(2)),
        (RXDCTL.at(3), rxdctl::ENABLE),
        (GPIE, gpie::MULTIPLE_MSIX),
        (IVAR.at(1), ivar::INT_ALLOC_2.is(5) | ivar::INT_ALLOC_VAL_2),
        (EIMS, 1 << 5),
        (RDT.at(3), 1),
    ];
    for (register, word) in writes.into_iter().filter(|it| Some(it.0) != forgotten) {
        nic.write(register, word);
    }
}

fn receive(name: &str, forgotten: Option<Register>) -> Result<(), Error> {
    let mut frame = [0; 60];
    frame[..15].copy_from_slice(&[2, 0, 0, 0, 0, 1, 2, 0, 0, 0, 0, 2, 8, 0, 0x45]);
    let nic = Nic::open(Sizes { blocks: 2, ..Sizes::default() })?;
    nic.lend_all()?;
    nic.memory().put_descriptor(0, 0, Descriptor::receive(0x800))?;
    set_up(&nic, forgotten);
    nic.settle(4)?;
    let _ = nic.arrive(&frame)?;
    println!("without {name}");
    for event in nic.steps(4)? {
        println!("    {}", event?); // a driver can act on each event before the next step
    }
    println!("{}", nic.why());
    Ok(())
}

fn main() -> Result<(), Error> {
    receive("a mistake", None)?;
    receive("RDT", Some(RDT.at(3)))?;
    receive("RXEN", Some(RXCTRL))?;
    receive("SRRCTL", Some(SRRCTL.at(3)))?;
    receive("IVAR", Some(IVAR.at(1)))
}
