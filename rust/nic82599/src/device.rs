//! How driver code accesses the device, no matter what runs the device's steps.

use crate::desc::Descriptor;
use crate::error::Error;
use crate::memory::slot_of;
use crate::nic::Nic;
use crate::register::{Register, VfRegister};

/// The accesses that driver code makes to the device. A [`Nic`] implements it, and so does the `Bus` of each task in a
/// search. Code that takes `&impl Device` therefore runs unchanged in an ordinary program and in a search for races.
///
/// ```
/// use nic82599::desc::Descriptor;
/// use nic82599::regs::RDT;
/// use nic82599::{Device, Error, Nic, Sizes};
///
/// /// Posts a slot of queue 0, with block 1 as its buffer.
/// fn refill(device: &impl Device, slot: u16) -> Result<(), Error> {
///     device.put_descriptor(0, slot, Descriptor::receive(0x800))?;
///     device.write(RDT.at(0), u32::from(slot) + 1);
///     Ok(())
/// }
///
/// let nic = Nic::open(Sizes { blocks: 2, ..Sizes::default() })?;
/// nic.lend_all()?;
/// refill(&nic, 0)?;
/// assert_eq!((nic.memory().get64(0), nic.peek(RDT.at(0))), (Ok(0x800), 1));
/// # Ok::<(), Error>(())
/// ```
pub trait Device {
    /// Reads a register.
    fn read(&self, register: Register) -> u32;

    /// Writes a register.
    fn write(&self, register: Register, word: u32);

    /// Reads the register at an address. Returns the value that a driver sees, even if there is no register.
    fn see32(&self, address: u32) -> u32;

    /// Writes the register at an address.
    ///
    /// # Errors
    ///
    /// [`Error::Stray`] if there is no register at the address.
    fn write32(&self, address: u32, word: u32) -> Result<(), Error>;

    /// Reads a register of a virtual function. Returns the value that a driver sees, even if there is no register.
    fn vf_read(&self, number: u8, register: VfRegister) -> u32;

    /// Writes a register of a virtual function.
    ///
    /// # Errors
    ///
    /// [`Error::Stray`] if there is no such function, or the function has no such register.
    fn vf_write(&self, number: u8, register: VfRegister, word: u32) -> Result<(), Error>;

    /// Fills `bytes` from packet memory, starting at a bus address.
    ///
    /// # Errors
    ///
    /// [`Error::NotLent`] if one of the bytes isn't lent.
    fn read_into(&self, bus: u64, bytes: &mut [u8]) -> Result<(), Error>;

    /// Writes bytes to packet memory, starting at a bus address.
    ///
    /// # Errors
    ///
    /// [`Error::NotLent`] if one of the bytes isn't lent.
    fn write_bytes(&self, bus: u64, bytes: &[u8]) -> Result<(), Error>;

    /// Reads a register, applies a closure to its value, and writes the result.
    fn modify(&self, register: Register, change: impl FnOnce(u32) -> u32) {
        self.write(register, change(self.read(register)));
    }

    /// Reads a descriptor in one access. `ring` is the bus address of the ring's first descriptor.
    ///
    /// # Errors
    ///
    /// [`Error::NotLent`] if one of its bytes isn't lent.
    fn descriptor(&self, ring: u64, slot: u16) -> Result<Descriptor, Error> {
        let mut bytes = [0; 16];
        self.read_into(slot_of(ring, slot), &mut bytes)?;
        Ok(Descriptor::from_bytes(bytes))
    }

    /// Writes a descriptor in one access. `ring` is the bus address of the ring's first descriptor.
    ///
    /// # Errors
    ///
    /// [`Error::NotLent`] if one of its bytes isn't lent.
    fn put_descriptor(&self, ring: u64, slot: u16, descriptor: Descriptor) -> Result<(), Error> {
        self.write_bytes(slot_of(ring, slot), &descriptor.to_bytes())
    }
}

impl Device for Nic {
    fn read(&self, register: Register) -> u32 {
        self.read(register)
    }

    fn write(&self, register: Register, word: u32) {
        self.write(register, word);
    }

    fn see32(&self, address: u32) -> u32 {
        self.see32(address)
    }

    fn write32(&self, address: u32, word: u32) -> Result<(), Error> {
        self.write32(address, word)
    }

    fn vf_read(&self, number: u8, register: VfRegister) -> u32 {
        self.vf(number).see32(register.offset())
    }

    fn vf_write(&self, number: u8, register: VfRegister, word: u32) -> Result<(), Error> {
        self.vf(number).write(register, word)
    }

    fn read_into(&self, bus: u64, bytes: &mut [u8]) -> Result<(), Error> {
        self.memory().read_into(bus, bytes)
    }

    fn write_bytes(&self, bus: u64, bytes: &[u8]) -> Result<(), Error> {
        self.memory().write(bus, bytes)
    }
}
