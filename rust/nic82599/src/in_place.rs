//! A controller that works in your program's own memory.

use std::cell::Cell;
use std::fmt;
use std::marker::PhantomData;
use std::ops::Deref;
use std::ptr::NonNull;

use crate::error::Error;
use crate::memory::Memory;
use crate::nic::Nic;
use crate::status;

/// A controller that works in your program's own memory, from [`Nic::in_place`]. It dereferences to a [`Nic`].
///
/// Your driver's rings and buffers are plain memory, which it reads and writes directly between two calls. The memory
/// is a slice of cells, because the device writes it too. It must outlive the controller: the type carries the lifetime
/// `'a`, so code that frees the memory first doesn't compile.
///
/// ```
/// use std::cell::Cell;
///
/// use nic82599::{Nic, Sizes};
///
/// let mut room = vec![0; 4096];
/// let memory = Cell::from_mut(&mut room[..]).as_slice_of_cells();
/// let nic = Nic::open(Sizes::default())?.in_place();
/// nic.lend_memory(0x800, memory)?;
/// memory[1].set(7); // by the driver
/// assert_eq!(nic.memory().read(0x800..0x803)?, [0, 7, 0]);
/// nic.memory().write(0x802, b"card")?; // as the device does
/// assert_eq!(memory[2].get(), b'c');
/// # Ok::<(), nic82599::Error>(())
/// ```
///
/// ```compile_fail
/// use std::cell::Cell;
///
/// let nic = nic82599::Nic::open(nic82599::Sizes::default()).unwrap().in_place();
/// {
///     let mut room = vec![0; 2048];
///     nic.lend_memory(0, Cell::from_mut(&mut room[..]).as_slice_of_cells()).unwrap();
/// }
/// drop(nic);
/// ```
pub struct InPlace<'a> {
    nic: Nic,
    // Invariant in 'a, so memory with a shorter lifetime can't be lent. Not `Send`, like a reference to cells.
    memory: PhantomData<Cell<&'a [Cell<u8>]>>,
}

impl<'a> InPlace<'a> {
    pub(crate) fn new(nic: Nic) -> InPlace<'a> {
        InPlace { nic, memory: PhantomData }
    }

    /// Lends memory in place: bus address `bus + i` is `memory[i]`. It stays lent until
    /// [`Memory::unlend`](crate::Memory::unlend), [`Nic::take`] or the controller's end. [`Nic::restore`] writes the
    /// restored bytes into it, and takes back blocks that aren't lent in the snapshot.
    ///
    /// # Errors
    ///
    /// [`Error::BadMemory`] if `bus` or the memory's length isn't a multiple of 2,048, or if one of these bytes is
    /// already lent to this controller; [`Error::NoBlock`]; [`Error::OutOfMemory`]. None of it is then lent.
    #[allow(unsafe_code)]
    pub fn lend_memory(&self, bus: u64, memory: &'a [Cell<u8>]) -> Result<(), Error> {
        let first = NonNull::from(memory).cast::<u8>();
        // SAFETY: the bytes are valid for 'a, and the controller doesn't outlive it. If the controller is forgotten, no
        // further call is made on it. Other code on this thread may write cells, but neither the cells nor the
        // controller are shared with another thread. During 'a all references to the bytes are to cells.
        unsafe { self.nic.memory().lend(bus, first, memory.len()) }
    }
}

impl Deref for InPlace<'_> {
    type Target = Nic;

    fn deref(&self) -> &Nic {
        &self.nic
    }
}

impl Drop for InPlace<'_> {
    /// Makes the compiler require that the memory is valid until the controller is dropped.
    fn drop(&mut self) {}
}

impl fmt::Debug for InPlace<'_> {
    fn fmt(&self, f: &mut fmt::Formatter<'_>) -> fmt::Result {
        f.debug_tuple("InPlace").field(&self.nic).finish()
    }
}

impl Memory<'_> {
    /// Lends your program's own memory, in place: bus address `bus + i` is the byte at `memory + i`, for each i below
    /// `length`. [`InPlace::lend_memory`](crate::InPlace::lend_memory) does the same without `unsafe`.
    ///
    /// # Safety
    ///
    /// `memory` must point to `length` bytes that may be read and written. They must stay valid until they are taken
    /// back, by [`Memory::unlend`], [`Nic::take`] or the controller's end, or by [`Nic::restore`] of a snapshot in
    /// which their block isn't lent. Until then, during a call on the controller, every live Rust reference to them
    /// must be to cells, and no other thread, signal handler or process may store into them. The bytes must not also be
    /// lent at another address where they are mapped.
    ///
    /// # Errors
    ///
    /// [`Error::BadMemory`] if `bus` or `length` isn't a multiple of 2,048, or if one of these bytes is already lent to
    /// this controller; [`Error::NoBlock`]; [`Error::OutOfMemory`]. None of it is then lent.
    #[allow(unsafe_code)]
    pub unsafe fn lend(&self, bus: u64, memory: NonNull<u8>, length: usize) -> Result<(), Error> {
        // SAFETY: the caller upholds the contract.
        Error::unless_done(unsafe { self.nic.handle().calls().lend_memory(bus, memory.as_ptr(), length) })
    }

    /// Takes back memory that was lent in place. The range may be part of the memory that one call lent. Its bytes stay
    /// unchanged.
    ///
    /// # Errors
    ///
    /// [`Error::BadMemory`] if `bus` or `length` isn't a multiple of 2,048; [`Error::NotLent`] with `bus` if not all of
    /// it is lent in place. None of it is then taken back.
    pub fn unlend(&self, bus: u64, length: usize) -> Result<(), Error> {
        match self.nic.handle().calls().unlend_memory(bus, length) {
            status::NOT_LENT => Err(Error::NotLent(bus)),
            other => Error::unless_done(other),
        }
    }
}
