//! Random calls, compared with the ones that c/tests/differential.c makes: from the same seed both write the same
//! script and the same answers. tests/digests.txt contains their digests (c/test writes and compares the C program's
//! digests). With NIC82599_TRANSCRIPTS=FOLDER, the transcripts of NIC82599_SEEDS (`1000:0 1002:2`, each a seed and a
//! number of virtual functions) are also written to the folder, and c/test compares them byte for byte.

mod common;

use std::env;
use std::fs;
use std::path::Path;

use common::differential::transcript;
use common::digest;

const DIGESTS: &str = include_str!("digests.txt");

#[test]
fn the_same_as_in_c() {
    let mut count = 0;
    for line in DIGESTS.lines().filter(|line| !line.starts_with('#')) {
        let numbers: Vec<&str> = line.split(' ').collect();
        let (seed, vfs) = (numbers[0].parse().unwrap(), numbers[1].parse().unwrap());
        let made = transcript(seed, vfs);
        let (script, answers) = (digest(&made.script), digest(&made.answers));
        assert_eq!(format!("{seed} {vfs} {} {} {script:016x} {answers:016x}", made.calls, made.lines), line);
        count += 1;
    }
    assert!(count >= 4);
}

#[test]
fn transcripts_for_others() {
    let folder = match env::var_os("NIC82599_TRANSCRIPTS") {
        Some(folder) => folder,
        None => return,
    };
    for given in env::var("NIC82599_SEEDS").unwrap().split(' ') {
        let (seed, vfs) = given.split_once(':').unwrap();
        let made = transcript(seed.parse().unwrap(), vfs.parse().unwrap());
        let name = Path::new(&folder).join(format!("{seed}-{vfs}"));
        fs::write(name.with_extension("script"), made.script).unwrap();
        fs::write(name.with_extension("answers"), made.answers).unwrap();
    }
}
