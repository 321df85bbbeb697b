//! The library for Rust: a kind is a value with the calls of include/record_seals.h as safe functions. Slices and references owe what C
//! buffers owe by themselves, so that no call can be made wrongly.
#![allow(dead_code)]

/// Why a call did nothing: the number, and the index of a word where the check or the finder tells one.
#[derive(Clone, Copy, Debug, PartialEq, Eq)]
pub struct Refusal {
    pub number: u8,
    pub index: Option<usize>,
}

/// A record, or nothing for an empty place, and the path from it to the root.
#[derive(Clone, Copy, Debug)]
pub struct Opening<'a> {
    pub claim: Option<&'a [u64]>,
    pub path: &'a [u64],
}

/// What the finder shows; the pairs are in its buffer.
#[derive(Clone, Copy, Debug, PartialEq, Eq)]
pub enum Clash {
    Pairs { level: usize },
    Records,
    ZeroRecord { second: bool },
}

/// Why there are no lines of a script.
#[derive(Clone, Copy, Debug, PartialEq, Eq)]
pub enum NoLines {
    Room { needed: usize },
    Memory,
}

const NOT_ELEMENT: u8 = 7;
const BAD_BUFFER: u8 = 10;
const NOT_ACCEPTED: u8 = 200;

type Digest = unsafe extern "C" fn(*const u64, usize, *mut u64, usize) -> u8;
type Pair = unsafe extern "C" fn(*const u64, usize, *const u64, usize, *mut u64, usize) -> u8;
type Mix = unsafe extern "C" fn(*mut u64, usize) -> u8;
type Check =
    unsafe extern "C" fn(*const u64, usize, usize, usize, bool, *const u64, usize, *const u64, usize, *mut usize) -> u8;
type Find = unsafe extern "C" fn(
    *const u64,
    usize,
    usize,
    usize,
    bool,
    *const u64,
    usize,
    *const u64,
    usize,
    bool,
    *const u64,
    usize,
    *const u64,
    usize,
    *mut u64,
    usize,
    *mut u8,
    *mut usize,
    *mut usize,
) -> u8;

mod library {
    macro_rules! kind {
        ($digest:ident $pair:ident $permute:ident $check:ident $find:ident) => {
            unsafe extern "C" {
                pub fn $digest(words: *const u64, words_len: usize, out: *mut u64, out_len: usize) -> u8;
                pub fn $pair(
                    a: *const u64,
                    a_len: usize,
                    b: *const u64,
                    b_len: usize,
                    out: *mut u64,
                    out_len: usize,
                ) -> u8;
                pub fn $permute(state: *mut u64, state_len: usize) -> u8;
                pub fn $check(
                    root: *const u64,
                    root_len: usize,
                    depth: usize,
                    place: usize,
                    has_record: bool,
                    record: *const u64,
                    record_len: usize,
                    path: *const u64,
                    path_len: usize,
                    index: *mut usize,
                ) -> u8;
                pub fn $find(
                    root: *const u64,
                    root_len: usize,
                    depth: usize,
                    place: usize,
                    first_has_record: bool,
                    first_record: *const u64,
                    first_record_len: usize,
                    first_path: *const u64,
                    first_path_len: usize,
                    second_has_record: bool,
                    second_record: *const u64,
                    second_record_len: usize,
                    second_path: *const u64,
                    second_path_len: usize,
                    out: *mut u64,
                    out_len: usize,
                    clash: *mut u8,
                    level: *mut usize,
                    index: *mut usize,
                ) -> u8;
            }
        };
    }

    kind!(drill_digest drill_pair drill_permute_state drill_check drill_find);
    kind!(rpo128_digest rpo128_pair rpo128_permute_state rpo128_check rpo128_find);
    kind!(rpo160_digest rpo160_pair rpo160_permute_state rpo160_check rpo160_find);

    unsafe extern "C" {
        pub fn rpo128_reverse_state(state: *mut u64, state_len: usize) -> u8;
        pub fn rpo160_reverse_state(state: *mut u64, state_len: usize) -> u8;
        pub fn script_lines(
            script: *const u8,
            script_len: usize,
            out: *mut u8,
            out_len: usize,
            written: *mut usize,
        ) -> u8;
    }
}

/// A kind of hash, with digests of `digest_len` words and states of `state_len`.
pub struct Kind {
    pub digest_len: usize,
    pub state_len: usize,
    digest: Digest,
    pair: Pair,
    permute: Mix,
    reverse: Option<Mix>,
    check: Check,
    find: Find,
}

pub const DRILL: Kind = Kind {
    digest_len: 1,
    state_len: 3,
    digest: library::drill_digest,
    pair: library::drill_pair,
    permute: library::drill_permute_state,
    reverse: None,
    check: library::drill_check,
    find: library::drill_find,
};

pub const RPO128: Kind = Kind {
    digest_len: 4,
    state_len: 12,
    digest: library::rpo128_digest,
    pair: library::rpo128_pair,
    permute: library::rpo128_permute_state,
    reverse: Some(library::rpo128_reverse_state),
    check: library::rpo128_check,
    find: library::rpo128_find,
};

pub const RPO160: Kind = Kind {
    digest_len: 5,
    state_len: 16,
    digest: library::rpo160_digest,
    pair: library::rpo160_pair,
    permute: library::rpo160_permute_state,
    reverse: Some(library::rpo160_reverse_state),
    check: library::rpo160_check,
    find: library::rpo160_find,
};

fn granted(number: u8) -> Result<(), Refusal> {
    if number == 0 { Ok(()) } else { Err(Refusal { number, index: None }) }
}

fn refusal(number: u8, index: usize) -> Refusal {
    Refusal { number, index: (number == NOT_ELEMENT).then_some(index) }
}

impl Kind {
    pub fn digest(&self, words: &[u64], out: &mut [u64]) -> Result<(), Refusal> {
        granted(unsafe { (self.digest)(words.as_ptr(), words.len(), out.as_mut_ptr(), out.len()) })
    }

    pub fn pair(&self, a: &[u64], b: &[u64], out: &mut [u64]) -> Result<(), Refusal> {
        granted(unsafe { (self.pair)(a.as_ptr(), a.len(), b.as_ptr(), b.len(), out.as_mut_ptr(), out.len()) })
    }

    pub fn permute(&self, state: &mut [u64]) -> Result<(), Refusal> {
        granted(unsafe { (self.permute)(state.as_mut_ptr(), state.len()) })
    }

    /// None where the kind has no reverse.
    pub fn reverse(&self, state: &mut [u64]) -> Option<Result<(), Refusal>> {
        let reverse = self.reverse?;
        Some(granted(unsafe { reverse(state.as_mut_ptr(), state.len()) }))
    }

    /// Whether an opening belongs to a root.
    pub fn check(&self, root: &[u64], depth: usize, place: usize, opening: Opening) -> Result<bool, Refusal> {
        let (record, path) = (opening.claim.unwrap_or_default(), opening.path);
        let mut index = 0;
        let number = unsafe {
            (self.check)(
                root.as_ptr(),
                root.len(),
                depth,
                place,
                opening.claim.is_some(),
                record.as_ptr(),
                record.len(),
                path.as_ptr(),
                path.len(),
                &mut index,
            )
        };
        match number {
            0 => Ok(true),
            NOT_ACCEPTED => Ok(false),
            _ => Err(refusal(number, index)),
        }
    }

    /// The clash that two openings of one place show.
    pub fn find(
        &self,
        root: &[u64],
        depth: usize,
        place: usize,
        [first, second]: [Opening; 2],
        out: &mut [u64],
    ) -> Result<Clash, Refusal> {
        let [one, two] = [first, second].map(|x| x.claim.unwrap_or_default());
        let (mut clash, mut level, mut index) = (0, 0, 0);
        let number = unsafe {
            (self.find)(
                root.as_ptr(),
                root.len(),
                depth,
                place,
                first.claim.is_some(),
                one.as_ptr(),
                one.len(),
                first.path.as_ptr(),
                first.path.len(),
                second.claim.is_some(),
                two.as_ptr(),
                two.len(),
                second.path.as_ptr(),
                second.path.len(),
                out.as_mut_ptr(),
                out.len(),
                &mut clash,
                &mut level,
                &mut index,
            )
        };
        match (number, clash) {
            (0, 1) => Ok(Clash::Pairs { level }),
            (0, 2) => Ok(Clash::Records),
            (0, _) => Ok(Clash::ZeroRecord { second: clash == 4 }),
            _ => Err(refusal(number, index)),
        }
    }
}

/// The lines of a script at the front of `out`, and how many bytes they have.
pub fn script_lines_into(script: &[u8], out: &mut [u8]) -> Result<usize, NoLines> {
    let mut written = 0;
    let number =
        unsafe { library::script_lines(script.as_ptr(), script.len(), out.as_mut_ptr(), out.len(), &mut written) };
    match number {
        0 => Ok(written),
        BAD_BUFFER => Err(NoLines::Room { needed: written }),
        _ => Err(NoLines::Memory),
    }
}

/// The lines of a script.
pub fn script_lines(script: &[u8]) -> Result<Vec<u8>, NoLines> {
    let needed = match script_lines_into(script, &mut []) {
        Ok(_) => return Ok(Vec::new()),
        Err(NoLines::Room { needed }) => needed,
        Err(why) => return Err(why),
    };
    let mut lines = vec![0; needed];
    script_lines_into(script, &mut lines)?;
    Ok(lines)
}
