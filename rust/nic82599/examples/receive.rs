//! A TCP frame arrives. Its hash picks queue 3, the device writes the frame to the ring, and an interrupt reports it.

use nic82599::desc::Descriptor;
use nic82599::regs::*;
use nic82599::{Error, Nic, Sizes};

const FRAME: [u8; 60] = [
    2, 0, 0, 0, 0, 1, 2, 0, 0, 0, 0, 2, 8, 0, // Ethernet: IPv4
    0x45, 0, 0, 40, 0, 0, 0, 0, 64, 6, 0, 0, 66, 9, 149, 187, 161, 142, 100, 80, // IPv4: TCP
    10, 234, 6, 230, 0, 0, 0, 0, 0, 0, 0, 0, 0x50, 16, 0, 0, 0, 0, 0, 0, // ports 2794 and 1766
    0, 0, 0, 0, 0, 0,
];

fn main() -> Result<(), Error> {
    let nic = Nic::open(Sizes { blocks: 2, ..Sizes::default() })?; // two blocks of packet memory
    nic.lend_all()?;
    nic.write(RXCTRL, rxctrl::RXEN);
    nic.write(FCTRL, fctrl::UPE); // accept all unicast frames
    nic.write(MRQC, mrqc::MRQE.is(1) | mrqc::TCPIPV4);
    nic.write(RETA.at(0), reta::ENTRY_0.is(3)); // under a key of zeros the hash is 0
    nic.write(RDLEN.at(3), 128); // eight descriptors, starting at bus address 0
    nic.write(SRRCTL.at(3), srrctl::DESCTYPE.is(1) | srrctl::BSIZEPACKET.is(2));
    nic.write(RXDCTL.at(3), rxdctl::ENABLE);
    nic.write(GPIE, gpie::MULTIPLE_MSIX); // MSI-X mode, which the card needs here
    nic.write(IVAR.at(1), ivar::INT_ALLOC_2.is(5) | ivar::INT_ALLOC_VAL_2); // queue 3 raises cause 5
    nic.write(EIMS, 1 << 5);
    nic.settle(4)?; // the device enables the queue
    nic.memory().put_descriptor(0, 0, Descriptor::receive(0x800))?; // slot 0: its buffer is block 1
    nic.write(RDT.at(3), 1); // the device owns slot 0
    println!("arrives: {:?}", nic.arrive(&FRAME)?);
    for event in nic.settle(4)? {
        println!("{}: {event}", event.step());
    }
    if let Some(written) = nic.memory().descriptor(0, 0)?.received() {
        println!("done: {} bytes, head {}", written.length, nic.read(RDH.at(3)));
    }
    Ok(())
}
