//! The functions of the proved library, as safe calls. A slice is a pointer and a length.
#![allow(dead_code)] // each program makes some of the calls

mod raw {
    unsafe extern "C" {
        pub fn field_product(a: u64, b: u64) -> u64;
        pub fn field_product_chain(x: u64, y: u64, n: u64) -> u64;
        pub fn field_products(xs: *mut u64, xs_len: usize, ys: *const u64, ys_len: usize) -> u8;
        pub fn keccak_f1600(lanes: *mut u64);
        pub fn script_lines(
            script: *const u8,
            script_len: usize,
            out: *mut u8,
            out_len: usize,
            written: *mut usize,
        ) -> u8;
        pub fn rpo128_permute(constants: *const u64, state: *mut u64);
        pub fn rpo160_permute(constants: *const u64, state: *mut u64);
        pub fn rpo128_digest(words: *const u64, words_len: usize, out: *mut u64, out_len: usize) -> u8;
        pub fn rpo160_digest(words: *const u64, words_len: usize, out: *mut u64, out_len: usize) -> u8;
        pub fn rpo128_pair(
            a: *const u64,
            a_len: usize,
            b: *const u64,
            b_len: usize,
            out: *mut u64,
            out_len: usize,
        ) -> u8;
        pub fn rpo160_pair(
            a: *const u64,
            a_len: usize,
            b: *const u64,
            b_len: usize,
            out: *mut u64,
            out_len: usize,
        ) -> u8;
        pub fn rpo128_pair_chain(
            n: u64,
            a: *mut u64,
            a_len: usize,
            b: *const u64,
            b_len: usize,
            out: *mut u64,
            out_len: usize,
        ) -> u8;
        pub fn rpo160_pair_chain(
            n: u64,
            a: *mut u64,
            a_len: usize,
            b: *const u64,
            b_len: usize,
            out: *mut u64,
            out_len: usize,
        ) -> u8;
    }
}

pub fn product(a: u64, b: u64) -> u64 {
    unsafe { raw::field_product(a, b) }
}

pub fn product_chain(x: u64, y: u64, n: u64) -> u64 {
    unsafe { raw::field_product_chain(x, y, n) }
}

pub fn products(xs: &mut [u64], ys: &[u64]) -> u8 {
    unsafe { raw::field_products(xs.as_mut_ptr(), xs.len(), ys.as_ptr(), ys.len()) }
}

pub fn keccak_f(lanes: &mut [u64; 25]) {
    unsafe { raw::keccak_f1600(lanes.as_mut_ptr()) }
}

pub fn script_lines(script: &[u8], out: &mut [u8], written: &mut usize) -> u8 {
    unsafe { raw::script_lines(script.as_ptr(), script.len(), out.as_mut_ptr(), out.len(), written) }
}

macro_rules! rpo {
    ($name:ident, $m:literal, $permute:ident, $digest:ident, $pair:ident, $chain:ident) => {
        pub mod $name {
            use super::raw;

            pub fn permute(constants: &[u64; 14 * $m], state: &mut [u64; $m]) {
                unsafe { raw::$permute(constants.as_ptr(), state.as_mut_ptr()) }
            }

            pub fn digest(words: &[u64], out: &mut [u64]) -> u8 {
                unsafe { raw::$digest(words.as_ptr(), words.len(), out.as_mut_ptr(), out.len()) }
            }

            pub fn pair(a: &[u64], b: &[u64], out: &mut [u64]) -> u8 {
                unsafe { raw::$pair(a.as_ptr(), a.len(), b.as_ptr(), b.len(), out.as_mut_ptr(), out.len()) }
            }

            pub fn pair_chain(n: u64, a: &mut [u64], b: &[u64], out: &mut [u64]) -> u8 {
                unsafe { raw::$chain(n, a.as_mut_ptr(), a.len(), b.as_ptr(), b.len(), out.as_mut_ptr(), out.len()) }
            }
        }
    };
}

rpo!(rpo128, 12, rpo128_permute, rpo128_digest, rpo128_pair, rpo128_pair_chain);
rpo!(rpo160, 16, rpo160_permute, rpo160_digest, rpo160_pair, rpo160_pair_chain);
