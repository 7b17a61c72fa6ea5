//! Tests of cases in the erased sources that no program reaches: counters at their maximum, and bytes that no program
//! prints.

use super::*;
use crate::dma_arena::Arena;
use crate::nic_device::Notes;
use crate::reg_table::{bump, RowId};
use crate::register_file::RegisterFile;

/// A counter of all frames stays at its maximum, and a virtual function's counter wraps. A program would need
/// 4,294,967,295 frames to show this.
#[test]
fn a_counter_comes_to_its_highest_word() {
    let mut file = RegisterFile::new();
    for word in [0, 1, 0x7fff_ffff, 0x8000_0000, u32::MAX - 1, u32::MAX] {
        assert_eq!(bump(word), if word == u32::MAX { word } else { word + 1 });
        for row in [RowId::Qprc, RowId::Vfgprc] {
            file.set_word(row, 15, word);
        }
        file.count(RowId::Qprc, 15);
        file.count_wrapping(RowId::Vfgprc, 15);
        assert_eq!(file.word(RowId::Qprc, 15), bump(word));
        assert_eq!(file.word(RowId::Vfgprc, 15), if word == u32::MAX { 0 } else { word + 1 });
    }
}

/// Notes with equal bytes share the bytes; other notes have separate bytes.
#[test]
fn a_note_has_its_blocks_bytes() {
    let mut notes = Notes::new(Global);
    let mut arena = Arena::new(Global, 0, 1).unwrap_or_else(|_| panic!("an arena of one block"));
    let mut buf = arena.take().expect("a block");
    for step in 0..64 {
        // Each byte string is noted twice, and the next one has the same length.
        buf.put(0, &[1, 2, 3, step / 2, 5]);
        let note = notes.of(Global, &buf).expect("a note");
        assert_eq!((note.number(), note.kept()), (buf.block(), &buf.bytes()[..note.kept().len()]));
        assert_eq!(note.zeros() as usize + note.kept().len(), buf.bytes().len());
    }
}
