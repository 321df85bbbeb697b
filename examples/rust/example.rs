//! What the library does for a Rust program, call by call: target/rust/example target/rust/day
mod seals;

use seals::{Clash, DRILL, NoLines, Opening, RPO128, Refusal};
use std::io::Write;
use std::process::ExitCode;

fn print_words(what: &str, words: &[u64]) {
    print!("{what}:");
    for word in words {
        print!(" {word}");
    }
    println!();
}

fn permute_and_back() -> Result<(), Refusal> {
    let mut state: Vec<u64> = (0..RPO128.state_len as u64).collect();
    RPO128.permute(&mut state)?;
    print_words("permuted", &state);
    if let Some(answer) = RPO128.reverse(&mut state) {
        answer?;
        print_words("reversed", &state);
    }
    Ok(())
}

fn print_check(root: &[u64], record: &[u64], path: &[u64]) {
    match RPO128.check(root, 1, 0, Opening { claim: Some(record), path }) {
        Ok(true) => println!("accepted"),
        Ok(false) => println!("not accepted"),
        Err(Refusal { number, index: Some(i) }) => println!("refused with {number}, word {i}"),
        Err(Refusal { number, index: None }) => println!("refused with {number}"),
    }
}

/// Two records, the root of the tree over them, and the opening of the first.
fn tree_of_two() -> Result<(), Refusal> {
    let mut first = [4123, 4127, 4119];
    let (mut left, mut right, mut root) = ([0; 4], [0; 4], [0; 4]);
    RPO128.digest(&first, &mut left)?;
    RPO128.digest(&[992, 993], &mut right)?;
    RPO128.pair(&left, &right, &mut root)?;
    print_words("digest", &left);
    print_words("root", &root);
    print_check(&root, &first, &right);
    first[1] += 1;
    print_check(&root, &first, &right);
    first[1] = 0xFFFF_FFFF_0000_0001;
    print_check(&root, &first, &right);
    Ok(())
}

/// Under the drill kind clashes are easy: two openings of place 1 that one root fits.
fn clash() -> Result<(), Refusal> {
    let first = Opening { claim: Some(&[4, 5]), path: &[0] };
    let second = Opening { claim: Some(&[13, 0]), path: &[2] };
    let mut pairs = [0; 4];
    if let Clash::Pairs { level } = DRILL.find(&[28], 1, 1, [first, second], &mut pairs)? {
        println!("clash 1 at level {level}");
        print_words("pairs", &pairs);
    }
    Ok(())
}

/// What can go wrong here.
#[derive(Debug)]
#[allow(dead_code)]
enum Wrong {
    Refused(Refusal),
    Lines(NoLines),
    Io(std::io::Error),
}

impl From<Refusal> for Wrong {
    fn from(why: Refusal) -> Self {
        Wrong::Refused(why)
    }
}

impl From<std::io::Error> for Wrong {
    fn from(why: std::io::Error) -> Self {
        Wrong::Io(why)
    }
}

fn run(path: &str) -> Result<(), Wrong> {
    let script = std::fs::read(path)?;
    permute_and_back()?;
    tree_of_two()?;
    clash()?;
    let lines = seals::script_lines(&script).map_err(Wrong::Lines)?;
    std::io::stdout().write_all(&lines)?;
    Ok(())
}

fn main() -> ExitCode {
    let Some(path) = std::env::args().nth(1) else {
        eprintln!("usage: example SCRIPT");
        return ExitCode::FAILURE;
    };
    match run(&path) {
        Ok(()) => ExitCode::SUCCESS,
        Err(why) => {
            eprintln!("{why:?}");
            ExitCode::FAILURE
        }
    }
}
