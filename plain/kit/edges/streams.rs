//! Tests of readers and writers.

use super::super::host::process::{Ended, ExitCode};
use super::super::io::{BufWriter, Error, ErrorKind, Read, Result, Write};
use super::super::vec::Vec as Items;
use super::*;

/// A writer that accepts a limited number of bytes per call, is interrupted before each write, and fails after a
/// certain byte.
struct Slow {
    most: usize,
    fails_at: usize,
    written: Vec<u8>,
    calls: usize,
    flushed: usize,
}

fn slow(most: usize, fails_at: usize) -> Slow {
    Slow { most, fails_at, written: vec![], calls: 0, flushed: 0 }
}

impl Write for Slow {
    fn write(&mut self, bytes: &[u8]) -> Result<usize> {
        self.calls += 1;
        if self.calls % 2 == 1 {
            return Err(Error::from(ErrorKind::Interrupted));
        }
        if self.written.len() >= self.fails_at {
            return Err(Error::from(ErrorKind::BrokenPipe));
        }
        let count = bytes.len().min(self.most).min(self.fails_at - self.written.len());
        self.written.extend(&bytes[..count]);
        Ok(count)
    }

    fn flush(&mut self) -> Result<()> {
        self.flushed += 1;
        Ok(())
    }
}

#[test]
fn a_slice_is_read_to_its_end() {
    let mut from: &[u8] = &[1, 2, 3, 4, 5];
    let mut buffer = [9; 3];
    assert_eq!((from.read(&mut []), from.read(&mut buffer), buffer), (Ok(0), Ok(3), [1, 2, 3]));
    assert_eq!(((&mut from).read(&mut buffer), buffer), (Ok(2), [4, 5, 3]));
    assert_eq!((from.read(&mut buffer), buffer), (Ok(0), [4, 5, 3]));
}

#[test]
fn all_bytes_are_written() {
    let mut to = slow(3, 1_000);
    assert_eq!(to.write_all(b"abcdefgh"), Ok(()));
    assert_eq!((&to.written[..], to.calls), (&b"abcdefgh"[..], 6));
    assert_eq!(to.write_all(b""), Ok(()));
    assert_eq!(to.write_fmt(format_args!("{}-{}", 1, 2)), Ok(()));
    assert_eq!(((&mut to).flush(), to.flushed, &to.written[8..]), (Ok(()), 1, &b"1-2"[..]));
    assert_eq!(slow(0, 1_000).write_all(b"a").map_err(|it| it.kind()), Err(ErrorKind::WriteZero));
    let mut to = slow(3, 4);
    assert_eq!(to.write_all(b"abcdefgh").map_err(|it| it.kind()), Err(ErrorKind::BrokenPipe));
    assert_eq!(to.write_fmt("x").map_err(|it| it.kind()), Err(ErrorKind::BrokenPipe));
    assert_eq!((&to.written[..], slow(3, 0).write_fmt("")), (&b"abcd"[..], Ok(())));
    let mut items = Items::new(Global);
    assert_eq!((items.write(b"ab"), items.write_all(b"c"), items.flush()), (Ok(2), Ok(()), Ok(())));
    assert_eq!(items.as_slice(), b"abc");
}

/// Makes writes of these sizes to a buffered writer. After a flush, its inner writer must have all the bytes, and at no
/// time may more than 8,192 bytes be held back.
#[test]
fn a_buffer_keeps_the_order() {
    for sizes in [[1, 8191, 1], [8192, 1, 8192], [8191, 1, 8192], [8191, 2, 5], [5000, 5000, 9000], [0, 0, 0]] {
        let (mut inner, mut all) = (slow(4096, usize::MAX), vec![]);
        let mut to = BufWriter::new(Global, &mut inner).unwrap();
        for (number, size) in sizes.into_iter().enumerate() {
            let bytes: Vec<u8> = (0..size).map(|k| (k % 251) as u8 ^ number as u8).collect();
            assert_eq!(to.write_all(&bytes), Ok(()));
            all.extend(bytes);
        }
        assert_eq!(to.flush(), Ok(()));
        let text = format!("{}", all.len());
        assert_eq!((to.write_fmt(&text), to.flush()), (Ok(()), Ok(())));
        all.extend(text.bytes());
        assert!(inner.written == all && inner.flushed == 2, "{sizes:?}");
    }
}

#[test]
fn a_failed_write_is_reported() {
    let mut to = BufWriter::new(Global, slow(4096, 0)).unwrap();
    assert_eq!(to.write(&[1; 8191]), Ok(8191));
    assert_eq!(to.write(&[1; 2]).map_err(|it| it.kind()), Err(ErrorKind::BrokenPipe));
    let mut to = BufWriter::new(Global, slow(4096, 0)).unwrap();
    assert_eq!((to.write(b"a"), to.flush().map_err(|it| it.kind())), (Ok(1), Err(ErrorKind::BrokenPipe)));
}

#[test]
fn a_program_ends_with_its_status() {
    assert_eq!((ExitCode::SUCCESS.status(), ExitCode::FAILURE.status(), ExitCode::from(7).status()), (0, 1, 7));
    assert_eq!((().status(), Ok::<_, ()>(ExitCode::from(9)).status(), Ok::<_, ()>(()).status()), (0, 9, 0));
    assert_eq!(Err::<(), _>("no").status(), 1);
}
