//! Packet memory that belongs to the caller: exchanges a lent block's memory for 2,048 bytes of the caller's memory.
//!
//! C passes the memory as a pointer, and gets it back with another exchange. Between two calls C may read and write
//! everything that a controller owns: a call works with the bytes that it finds. In Rattle the handles are pointers;
//! here they are boxes.

use crate::kit::mem::ManuallyDrop;
use crate::kit::prelude::*;
use crate::nic82599_c::handle::Handle;
use crate::nic82599_c::status::{DONE, NOT_LENT};
use crate::nic_device::BLOCK_BYTES;

/// A handle to a block's 2,048 bytes. In C it is a struct with one pointer, which may also point to the caller's
/// memory: the C library ignores requests to free such memory.
#[repr(C)]
pub struct BlockHandle {
    bytes: Box<[u8; BLOCK_BYTES]>,
}

/// Room for C to receive the pointer to a block's 2,048 bytes. Its old contents are overwritten without being dropped.
#[repr(C)]
pub struct BlockHandleOut {
    bytes: ManuallyDrop<Option<Box<[u8; BLOCK_BYTES]>>>,
}

impl BlockHandleOut {
    fn of(bytes: Box<[u8; BLOCK_BYTES]>) -> BlockHandleOut {
        BlockHandleOut { bytes: ManuallyDrop::new(Some(bytes)) }
    }
}

/// Exchanges the memory of a lent block for other memory, without a copy: the block gets the new bytes, and `former`
/// gets the block's previous memory with its bytes. Returns DONE, or NOT_LENT; in that case nothing changes, and
/// `former` is the memory passed in. The old contents of `former` are leaked. The exchange also works on a broken
/// handle, so that the caller gets its memory back.
pub fn nic_exchange(nic: &mut Handle, block: u32, memory: BlockHandle, former: &mut BlockHandleOut) -> u8 {
    let exchanged = nic.get_mut().exchange(block, memory.bytes);
    #[cfg(feature = "c")]
    crate::kit::c::planted("an exchange");
    match exchanged {
        Ok(bytes) => {
            *former = BlockHandleOut::of(bytes);
            DONE
        }
        Err(bytes) => {
            *former = BlockHandleOut::of(bytes);
            NOT_LENT
        }
    }
}

/// The calls for C.
#[cfg(feature = "c")]
#[allow(unsafe_code)]
mod for_c {
    use super::*;
    use crate::kit::c;

    /// # Safety
    /// The pointers must meet the requirements of `nic82599.h`.
    #[no_mangle]
    pub unsafe extern "C" fn nic_exchange(
        nic: &mut Handle,
        block: u32,
        memory: BlockHandle,
        former: &mut BlockHandleOut,
    ) -> u8 {
        c::exchanging(nic, |nic| super::nic_exchange(nic, block, memory, former))
    }
}
