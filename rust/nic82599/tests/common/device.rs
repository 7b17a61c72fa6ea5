//! Driver code that runs on either kind of device, a `Nic` or a `Bus`.

use nic82599::desc::Descriptor;
use nic82599::regs::{vf, *};
use nic82599::{Absent, Device, Error};

/// Takes the frame in a slot, if there is one, and returns the slot to the device. Returns whether there was a frame.
pub fn take(device: &impl Device, slot: u16) -> Result<bool, Error> {
    let is_done = device.descriptor(0, slot)?.received().is_some();
    if is_done {
        device.put_descriptor(0, slot, Descriptor::receive(0x800))?;
        device.write(RDT.at(0), u32::from(slot));
    }
    Ok(is_done)
}

/// Sets up queue 0, by name and by address.
pub fn start(device: &impl Device) -> Result<(), Error> {
    device.write(RXCTRL, rxctrl::RXEN);
    device.write32(FCTRL.address(), fctrl::UPE)?;
    device.write(RDLEN.at(0), 128);
    device.modify(SRRCTL.at(0), |_| srrctl::DESCTYPE.is(1) | srrctl::BSIZEPACKET.is(2));
    device.write(RXDCTL.at(0), rxdctl::ENABLE);
    for slot in 0..8 {
        device.put_descriptor(0, slot, Descriptor::receive(0x800))?;
    }
    device.write(RDT.at(0), 7);
    device.write(GCR_EXT, gcr_ext::VT_MODE.is(3));
    device.vf_write(0, vf::VTEIMS, 1)?;
    let strays = (device.see32(0xC), device.write32(0xC, 1), device.vf_write(9, vf::VTEIMS, 1));
    assert_eq!((strays.0, strays.1), (0, Err(Error::Stray { at: 0xC, word: None, why: Absent::Register })));
    let why = strays.2.unwrap_err();
    assert!(matches!(why, Error::Stray { at: 0x108, word: None, why: Absent::Function { number: 9, .. } }), "{why}");
    assert_eq!((device.vf_read(0, vf::VTEIMS), device.vf_read(9, vf::VTEIMS)), (1, u32::MAX));
    assert_eq!((device.read_into(0, &mut [0; 4]), device.see32(RDT.at(0).address())), (Ok(()), 7));
    Ok(())
}
