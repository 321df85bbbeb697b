//! The same driver as examples/c/cases.c, over the safe calls of seals.rs: makes the calls that its input asks for, a line each, and
//! prints what they answer and leave. A list is its length and its words; "-" is an empty one.
mod seals;

use seals::{Clash, DRILL, Kind, NoLines, Opening, RPO128, RPO160, Refusal};
use std::io::BufRead;
use std::str::SplitAsciiWhitespace;

/// The words of a line that are left.
struct Rest<'a>(SplitAsciiWhitespace<'a>);

impl Rest<'_> {
    fn word(&mut self) -> &str {
        self.0.next().expect("a line is cut short")
    }

    fn number<T: std::str::FromStr<Err: std::fmt::Debug>>(&mut self) -> T {
        self.word().parse().expect("no number")
    }

    fn long(&mut self) -> usize {
        match self.word() {
            "-" => 0,
            n => n.parse().expect("no length"),
        }
    }

    fn list(&mut self) -> Vec<u64> {
        let n = self.long();
        (0..n).map(|_| self.number()).collect()
    }

    fn room(&mut self) -> Vec<u64> {
        let n = self.long();
        (1000..).take(n).collect()
    }

    /// A claim, of which the record is dropped where the flag is 0.
    fn claim(&mut self) -> Option<Vec<u64>> {
        let flag: u8 = self.number();
        let record = self.list();
        (flag != 0).then_some(record)
    }
}

fn code(answer: Result<(), Refusal>) -> u8 {
    answer.err().map_or(0, |why| why.number)
}

fn written(head: String, words: &[u64]) -> String {
    words.iter().fold(head, |line, word| line + " " + &word.to_string())
}

fn digest(kind: &Kind, mut rest: Rest) -> String {
    let (words, mut out) = (rest.list(), rest.room());
    let answer = kind.digest(&words, &mut out);
    written(code(answer).to_string(), &out)
}

fn pair(kind: &Kind, mut rest: Rest) -> String {
    let (a, b, mut out) = (rest.list(), rest.list(), rest.room());
    let answer = kind.pair(&a, &b, &mut out);
    written(code(answer).to_string(), &out)
}

fn mix(kind: &Kind, back: bool, mut rest: Rest) -> String {
    let mut state = rest.list();
    let answer = if back { kind.reverse(&mut state).expect("no reverse") } else { kind.permute(&mut state) };
    written(code(answer).to_string(), &state)
}

fn check(kind: &Kind, mut rest: Rest) -> String {
    let (root, depth, place) = (rest.list(), rest.number(), rest.number());
    let (claim, path) = (rest.claim(), rest.list());
    match kind.check(&root, depth, place, Opening { claim: claim.as_deref(), path: &path }) {
        Ok(true) => "0 999".to_string(),
        Ok(false) => "200 999".to_string(),
        Err(why) => format!("{} {}", why.number, why.index.unwrap_or(999)),
    }
}

fn find(kind: &Kind, mut rest: Rest) -> String {
    let (root, depth, place) = (rest.list(), rest.number(), rest.number());
    let (first, first_path) = (rest.claim(), rest.list());
    let (second, second_path) = (rest.claim(), rest.list());
    let mut out = rest.room();
    let one = Opening { claim: first.as_deref(), path: &first_path };
    let two = Opening { claim: second.as_deref(), path: &second_path };
    let head = match kind.find(&root, depth, place, [one, two], &mut out) {
        Ok(Clash::Pairs { level }) => format!("0 1 {level} 999"),
        Ok(Clash::Records) => "0 2 998 999".to_string(),
        Ok(Clash::ZeroRecord { second }) => format!("0 {} 998 999", if second { 4 } else { 3 }),
        Err(why) => format!("{} 97 998 {}", why.number, why.index.unwrap_or(999)),
    };
    written(head, &out)
}

fn script(mut rest: Rest) -> String {
    let [commands, mut out] = [rest.list(), rest.room()].map(|x| x.iter().map(|x| *x as u8).collect::<Vec<u8>>());
    let head = match seals::script_lines_into(&commands, &mut out) {
        Ok(n) => format!("0 {n}"),
        Err(NoLines::Room { needed }) => format!("10 {needed}"),
        Err(NoLines::Memory) => "201 997".to_string(),
    };
    written(head, &out.iter().map(|x| u64::from(*x)).collect::<Vec<u64>>())
}

fn answer(line: &str) -> String {
    let mut rest = Rest(line.split_ascii_whitespace());
    let call = rest.word().to_string();
    let kind = &[DRILL, RPO128, RPO160][rest.number::<usize>()];
    match call.as_str() {
        "digest" => digest(kind, rest),
        "pair" => pair(kind, rest),
        "permute" => mix(kind, false, rest),
        "reverse" => mix(kind, true, rest),
        "check" => check(kind, rest),
        "find" => find(kind, rest),
        _ => script(rest),
    }
}

fn main() {
    for line in std::io::stdin().lock().lines() {
        println!("{}", answer(&line.expect("no text")));
    }
}
