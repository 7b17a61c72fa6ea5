//! Captures of frames.

use std::io::{self, ErrorKind};

use nic82599::pcap::{Reader, Writer};

fn frames(file: &[u8]) -> io::Result<Vec<Vec<u8>>> {
    Reader::new(file)?.collect()
}

fn written(frames: &[Vec<u8>]) -> Vec<u8> {
    let mut capture = Writer::new(Vec::new()).unwrap();
    for (number, frame) in frames.iter().enumerate() {
        capture.put(1_500_000 + number as u64, frame).unwrap();
    }
    capture.into_inner()
}

fn some() -> Vec<Vec<u8>> {
    vec![vec![1; 60], (0..1514).map(|it| it as u8).collect(), vec![], vec![9; 100_000]]
}

#[test]
fn comes_back() {
    let file = written(&some());
    assert_eq!(frames(&file).unwrap(), some());
    assert_eq!(file.len(), 24 + 4 * 16 + 60 + 1514 + 100_000);
    assert_eq!(file[24..32], [1, 0, 0, 0, 0x20, 0xA1, 7, 0]); // 1 s and 500,000 µs
}

/// The same capture with the other byte order.
#[test]
fn of_either_byte_order() {
    let mut file = written(&some());
    let mut at = 0;
    let turn = |file: &mut Vec<u8>, from: usize, words: usize| {
        file[from..from + 4 * words].chunks_mut(4).for_each(<[u8]>::reverse);
    };
    turn(&mut file, at, 6);
    at += 24;
    for frame in some() {
        turn(&mut file, at, 4);
        at += 16 + frame.len();
    }
    assert_eq!(frames(&file).unwrap(), some());
    file[2..4].copy_from_slice(&[0x3C, 0x4D]); // nanoseconds
    assert_eq!(frames(&file).unwrap(), some());
}

#[test]
fn what_is_broken() {
    let file = written(&some());
    for cut in [0, 3, 23, 25, 39, 40, 60, file.len() - 1] {
        let result = frames(&file[..cut]).map_err(|it| it.kind());
        assert_eq!(result, Err(ErrorKind::UnexpectedEof), "{cut}");
    }
    let words = |file: &[u8]| frames(file).unwrap_err().to_string();
    assert_eq!((words(&[]), words(&file[..30])), (words(&file[..23]), words(&file[..60])));
    assert_eq!(words(&file[..60]), "the capture ends within a frame");
    assert!(words(&[0x0A, 0x0D, 0x0D, 0x0A].repeat(7)).contains("editcap -F pcap"));
    assert_eq!(frames(&file[..24]).unwrap().len(), 0);
    for (at, byte) in [(0, 7), (20, 2), (32, 61), (35, 1)] {
        let mut bad = file.clone();
        bad[at] = byte;
        let result = frames(&bad).map_err(|it| it.kind());
        assert_eq!(result, Err(ErrorKind::InvalidData), "{at}");
    }
    let mut ends = Reader::new(&file[..30]).unwrap();
    assert!(ends.next().unwrap().is_err() && ends.next().is_none());
    let result = Writer::new(Vec::new()).unwrap().put(0, &vec![0; 262_145]).map_err(|it| it.kind());
    assert_eq!(result, Err(ErrorKind::InvalidInput));
}
