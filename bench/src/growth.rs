//! How the proved library's cost grows: a digest with its words, a closing with the depth, a record in a lot with its words.
//! Prints lines of a name, a number and microseconds; those of scripts have the start of a lot in them, and a hundred records.
//! bench/picture.py makes tables and pictures of them.
mod clock;
mod proved;

use clock::now;

const ROUNDS: usize = 21;
const KINDS: [(&str, u8); 2] = [("RPO-128", 1), ("RPO-160", 2)];

/// Microseconds of a call, the least of all rounds.
fn least(call: &mut dyn FnMut()) -> f64 {
    let mut best = f64::MAX;
    for _ in 0..ROUNDS {
        let start = now();
        call();
        best = best.min(now() - start);
    }
    best / 1000.0
}

/// Microseconds of all lines of a script.
fn script_time(script: &[u8]) -> f64 {
    let mut out = vec![0; 1 << 20];
    let mut written = 0;
    least(&mut || assert_eq!(proved::script_lines(script, &mut out, &mut written), 0))
}

fn digests() {
    for n in [1, 8, 16, 32, 64, 128, 256, 512, 1024, 2048, 4096] {
        let record: Vec<u64> = (0..n).collect();
        let one = least(&mut || assert_eq!(proved::rpo128::digest(&record, &mut [0; 4]), 0));
        let other = least(&mut || assert_eq!(proved::rpo160::digest(&record, &mut [0; 5]), 0));
        println!("digest RPO-128\t{n}\t{one:.2}");
        println!("digest RPO-160\t{n}\t{other:.2}");
    }
}

/// The script that starts a lot of a kind with a depth, and what follows.
fn started(kind: u8, depth: u8, rest: &[u8]) -> Vec<u8> {
    let mut script = vec![0x01, kind, depth];
    script.extend_from_slice(rest);
    script
}

fn closings() {
    for (name, kind) in KINDS {
        for depth in 0..=8 {
            println!("start {name}\t{depth}\t{:.2}", script_time(&started(kind, depth, &[])));
            println!("close {name}\t{depth}\t{:.2}", script_time(&started(kind, depth, &[0x17])));
        }
    }
}

/// The commands of a record: begin, all of its words, eight at a time as far as they go, and seal where it is wanted.
fn record_script(words: u16, sealed: bool) -> Vec<u8> {
    let mut script = vec![0x10, 0, 0, 0];
    script.extend_from_slice(&words.to_le_bytes());
    for _ in 0..words / 8 {
        script.extend_from_slice(&[0x18, 0]);
        script.extend_from_slice(&[7, 0, 0, 0, 0, 0, 0, 0].repeat(8));
    }
    for _ in 0..words % 8 {
        script.extend_from_slice(&[0x11, 0, 7, 0, 0, 0, 0, 0, 0, 0]);
    }
    script.extend_from_slice(&[if sealed { 0x12 } else { 0x13 }, 0]);
    script
}

fn records() {
    for (name, kind) in KINDS {
        for words in [1, 2, 4, 8, 16, 32, 64] {
            for (what, sealed) in [("record", true), ("dropped", false)] {
                let script = started(kind, 8, &record_script(words, sealed).repeat(100));
                println!("{what} {name}\t{words}\t{:.2}", script_time(&script));
            }
        }
    }
}

fn main() {
    digests();
    closings();
    records();
}
