//! The numbers that C library calls return, generated from the header nic82599.h by dev/generate statuses.
// Some numbers are unused.
#![allow(dead_code)]

// What a call returns.
pub(crate) const DONE: u8 = 0;
pub(crate) const STRAY: u8 = 1;
pub(crate) const IDLE: u8 = 2;
pub(crate) const DROPPED: u8 = 3;
pub(crate) const WROTE: u8 = 4;
pub(crate) const ADVANCED: u8 = 5;
pub(crate) const SENT: u8 = 6;
pub(crate) const FAULT: u8 = 7;
pub(crate) const MESSAGE: u8 = 8;
pub(crate) const FRAME: u8 = 9;
pub(crate) const NOT_LENT: u8 = 16;
pub(crate) const NO_QUEUE: u8 = 18;
pub(crate) const NO_GROUP: u8 = 19;
pub(crate) const OUT_OF_MEMORY: u8 = 32;
pub(crate) const NO_ROOM: u8 = 33;
pub(crate) const TOO_MANY_VFS: u8 = 34;
pub(crate) const BAD_FIFO: u8 = 35;
pub(crate) const BAD_BLOCKS: u8 = 36;
pub(crate) const NO_BLOCK: u8 = 37;
pub(crate) const MORE: u8 = 38;
pub(crate) const BAD_MEMORY: u8 = 39;
pub(crate) const CLOSED: u8 = 40;
pub(crate) const BROKEN: u8 = 41;
pub(crate) const IMAGE: u8 = 64;
pub(crate) const IMAGE_ODD_LENGTH: u8 = 65;
pub(crate) const IMAGE_BAD_SIZE: u8 = 66;
pub(crate) const IMAGE_SECTION_OUTSIDE: u8 = 67;
pub(crate) const IMAGE_BAD_CHECKSUM: u8 = 68;
pub(crate) const IMAGE_NOT_TRIPLES: u8 = 69;
pub(crate) const TEXT: u8 = 96;
pub(crate) const TEXT_SYNTAX: u8 = 97;
pub(crate) const TEXT_TWO_VALUES: u8 = 98;
pub(crate) const TEXT_RESERVED: u8 = 99;
pub(crate) const TEXT_DOES_NOT_FIT: u8 = 100;
pub(crate) const TEXT_POINTER_OUTSIDE: u8 = 101;
pub(crate) const TEXT_NOT_UTF8: u8 = 102;

// Why a frame is dropped.
pub(crate) const WHY_LINK_DOWN: u8 = 1;
pub(crate) const WHY_OFF: u8 = 2;
pub(crate) const WHY_SHORT: u8 = 3;
pub(crate) const WHY_LONG: u8 = 4;
pub(crate) const WHY_FILTER: u8 = 5;
pub(crate) const WHY_NO_POOL: u8 = 6;
pub(crate) const WHY_POOL_OFF: u8 = 7;
pub(crate) const WHY_FULL: u8 = 8;
pub(crate) const WHY_QUEUE_OFF: u8 = 9;
pub(crate) const WHY_NO_SLOT: u8 = 10;

// Why a slot can't be processed.
pub(crate) const FAULT_OUTSIDE: u8 = 1;
pub(crate) const FAULT_NOT_LENT: u8 = 2;
pub(crate) const FAULT_TYPE: u8 = 3;
pub(crate) const FAULT_NO_BUFFER_SIZE: u8 = 4;
pub(crate) const FAULT_OFFLOAD: u8 = 5;
pub(crate) const FAULT_LEGACY: u8 = 6;
pub(crate) const FAULT_TOO_LONG: u8 = 7;
pub(crate) const FAULT_UNKNOWN_TYPE: u8 = 8;

// The steps of the device, as nic_settle reports them.
pub(crate) const RX_ENABLE: u8 = 0;
pub(crate) const TX_ENABLE: u8 = 1;
pub(crate) const EEPROM: u8 = 2;
pub(crate) const TRANSMIT: u8 = 3;
pub(crate) const RECEIVE: u8 = 4;
pub(crate) const INTERRUPT: u8 = 5;
