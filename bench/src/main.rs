//! Holds the proved library against an independent implementation: first that both give the same, then their times.
mod clock;
mod independent;
mod proved;

use clock::now;
use independent::P;
use std::hint::black_box;

const ROUNDS: usize = 21;
const EDGES: [u64; 12] =
    [0, 1, 7, (1 << 32) - 1, 1 << 32, (1 << 32) + 1, 1 << 63, P >> 1, P - (1 << 32), P - (1 << 32) + 1, P - 2, P - 1];

/// A small generator of random words, so that each run has the same.
struct Dice(u64);

impl Dice {
    fn word(&mut self) -> u64 {
        self.0 = self.0.wrapping_add(0x9E37_79B9_7F4A_7C15);
        let z = (self.0 ^ (self.0 >> 30)).wrapping_mul(0xBF58_476D_1CE4_E5B9);
        let z = (z ^ (z >> 27)).wrapping_mul(0x94D0_49BB_1331_11EB);
        z ^ (z >> 31)
    }

    /// An element, at times one at an edge.
    fn element(&mut self) -> u64 {
        match self.word() % 4 {
            0 => EDGES[self.word() as usize % EDGES.len()],
            _ => self.word() % P,
        }
    }

    fn elements<const N: usize>(&mut self) -> [u64; N] {
        std::array::from_fn(|_| self.element())
    }

    fn record(&mut self, count: usize) -> Vec<u64> {
        (0..count).map(|_| self.element()).collect()
    }
}

fn check_products(dice: &mut Dice) -> usize {
    for a in EDGES {
        for b in EDGES {
            assert_eq!(proved::product(a, b), independent::product(a, b));
        }
    }
    for _ in 0..200_000 {
        let (a, b) = (dice.word(), dice.word());
        assert_eq!(proved::product(a, b), (a as u128 * b as u128 % P as u128) as u64);
        let (a, b) = (dice.element(), dice.element());
        assert_eq!(proved::product(a, b), independent::product(a, b));
    }
    let (x, y) = (dice.element(), dice.element());
    assert_eq!(proved::product_chain(x, y, 1000), independent::product_chain(x, y, 1000));
    let (mut xs, ys) = (dice.record(1000), dice.record(1000));
    let mut zs = xs.clone();
    assert_eq!(proved::products(&mut xs, &ys), 0);
    independent::products(&mut zs, &ys);
    assert_eq!(xs, zs);
    assert_eq!(proved::products(&mut xs, &ys[1..]), 10);
    assert_eq!(xs, zs);
    400_000 + EDGES.len() * EDGES.len() + 2000
}

fn check_keccak(dice: &mut Dice) -> usize {
    for _ in 0..10_000 {
        let mut a: [u64; 25] = std::array::from_fn(|_| dice.word());
        let mut b = a;
        proved::keccak_f(&mut a);
        independent::keccak_f(&mut b);
        assert_eq!(a, b);
    }
    10_000
}

macro_rules! check_rpo {
    ($check:ident, $name:ident) => {
        fn $check(dice: &mut Dice) -> usize {
            use independent::$name::{M, W, derive, digest, pair, pair_chain, permute};
            let k = derive();
            for _ in 0..10_000 {
                let mut a: [u64; M] = dice.elements();
                let mut b = a;
                proved::$name::permute(&k, &mut a);
                permute(&k, &mut b);
                assert_eq!(a, b);
            }
            let mut out = [0; W];
            for n in (1..=200).chain([1000, 4095, 4096]) {
                let record = dice.record(n);
                assert_eq!(proved::$name::digest(&record, &mut out), 0);
                assert_eq!(out, digest(&k, &record));
            }
            for _ in 0..1000 {
                let (a, b): ([u64; W], [u64; W]) = (dice.elements(), dice.elements());
                assert_eq!(proved::$name::pair(&a, &b, &mut out), 0);
                assert_eq!(out, pair(&k, &a, &b));
            }
            let (mut a, b): ([u64; W], [u64; W]) = (dice.elements(), dice.elements());
            let last = pair_chain(&k, 100, &a, &b);
            assert_eq!(proved::$name::pair_chain(100, &mut a, &b, &mut out), 0);
            assert_eq!((a, out), (last, last));
            assert_eq!(proved::$name::digest(&[], &mut out), 4);
            assert_eq!(proved::$name::digest(&[P; 4097], &mut out[1..]), 4);
            assert_eq!(proved::$name::digest(&[P], &mut out[1..]), 10);
            assert_eq!(proved::$name::digest(&[P], &mut out), 7);
            assert_eq!(proved::$name::pair(&[P; W], &b[1..], &mut out), 10);
            assert_eq!(proved::$name::pair(&[P; W], &b, &mut out), 7);
            assert_eq!(out, last);
            10_000 + 203 + 1000 + 100 + 6
        }
    };
}

check_rpo!(check_rpo128, rpo128);
check_rpo!(check_rpo160, rpo160);

/// Nanoseconds for each of `count` units of one call.
fn time(count: u64, call: &mut dyn FnMut()) -> f64 {
    let start = now();
    call();
    (now() - start) / count as f64
}

fn least_of(times: &[f64]) -> f64 {
    times.iter().copied().fold(f64::MAX, f64::min)
}

fn median(mut times: Vec<f64>) -> f64 {
    times.sort_by(f64::total_cmp);
    times[times.len() / 2]
}

/// Times both in turn, so that what else the machine does falls on both, and prints a line.
fn compare(what: &str, count: u64, ours: &mut dyn FnMut(), theirs: &mut dyn FnMut()) {
    let (mut a, mut b) = (vec![], vec![]);
    for _ in 0..ROUNDS {
        a.push(time(count, ours));
        b.push(time(count, theirs));
    }
    let ratios = a.iter().zip(&b).map(|(x, y)| x / y).collect();
    let (x, y) = (least_of(&a), least_of(&b));
    println!("{what:42} {x:12.1} {y:12.1} {:8.2} {:8.2}", x / y, median(ratios));
}

fn compare_products(dice: &mut Dice) {
    let (x, y) = (dice.element(), dice.element());
    let n = 200_000;
    compare(
        "product, each after the one before",
        n,
        &mut || _ = black_box(proved::product_chain(black_box(x), y, n)),
        &mut || _ = black_box(independent::product_chain(black_box(x), y, n)),
    );
    let (mut xs, ys) = (dice.record(1000), dice.record(1000));
    let mut zs = xs.clone();
    compare(
        "product, side by side",
        200_000,
        &mut || (0..200).for_each(|_| _ = black_box(proved::products(&mut xs, &ys))),
        &mut || (0..200).for_each(|_| independent::products(black_box(&mut zs), &ys)),
    );
}

macro_rules! compare_rpo {
    ($compare:ident, $name:ident, $title:literal) => {
        fn $compare(dice: &mut Dice) {
            use independent::$name::{M, W, derive, digest, pair, pair_chain, permute};
            let k = derive();
            let mut s: [u64; M] = dice.elements();
            let mut t = s;
            compare(
                concat!($title, " permutation"),
                200,
                &mut || (0..200).for_each(|_| proved::$name::permute(&k, black_box(&mut s))),
                &mut || (0..200).for_each(|_| permute(&k, black_box(&mut t))),
            );
            let record = dice.record(4096);
            let mut out = [0; W];
            compare(
                concat!($title, " digest of 4,096 words"),
                1,
                &mut || assert_eq!(black_box(proved::$name::digest(black_box(&record), &mut out)), 0),
                &mut || _ = black_box(digest(&k, black_box(&record))),
            );
            let (mut a, b): ([u64; W], [u64; W]) = (dice.elements(), dice.elements());
            let c = a;
            let mut room = [0; W];
            compare(
                concat!($title, " two-to-one, constants kept"),
                200,
                &mut || assert_eq!(proved::$name::pair_chain(200, black_box(&mut a), &b, &mut room), 0),
                &mut || _ = black_box(pair_chain(&k, 200, black_box(&c), &b)),
            );
            compare(
                concat!($title, " two-to-one, constants derived"),
                100,
                &mut || (0..100).for_each(|_| assert_eq!(proved::$name::pair(black_box(&c), &b, &mut room), 0)),
                &mut || (0..100).for_each(|_| _ = black_box(pair(&derive(), black_box(&c), &b))),
            );
        }
    };
}

compare_rpo!(compare_rpo128, rpo128, "RPO-128");
compare_rpo!(compare_rpo160, rpo160, "RPO-160");

fn compare_keccak(dice: &mut Dice) {
    let mut a: [u64; 25] = std::array::from_fn(|_| dice.word());
    let mut b = a;
    compare("Keccak-f", 2000, &mut || (0..2000).for_each(|_| proved::keccak_f(black_box(&mut a))), &mut || {
        (0..2000).for_each(|_| independent::keccak_f(black_box(&mut b)))
    });
}

fn main() {
    let dice = &mut Dice(20221101);
    let checks = check_products(dice) + check_keccak(dice) + check_rpo128(dice) + check_rpo160(dice);
    println!("both agree on {checks} inputs");
    println!(
        "{:42} {:>12} {:>12} {:>8} {:>8}",
        "least ns, and ours / independent", "ours", "independent", "least", "median"
    );
    compare_products(dice);
    compare_rpo128(dice);
    compare_rpo160(dice);
    compare_keccak(dice);
}
