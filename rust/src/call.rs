//! The calls as `include/thiraduan.h` has them, safe: a verdict is the result, and what is lent is written.

use crate::STATE_BYTES;

mod raw {
    extern "C" {
        pub fn thiraduan_digest(m: *const u8, n: usize, out: *mut u8) -> u32;
        pub fn thiraduan_tag(key: *const u8, m: *const u8, n: usize, out: *mut u8) -> u32;
        pub fn thiraduan_term_key(code: *const u8, n: usize, term: *const u8, k: usize, out: *mut u8) -> u32;
        pub fn thiraduan_fingerprint(sealed: *const u8, n: usize, fingerprint: *const u8, yes: *mut u8) -> u32;
        pub fn thiraduan_open(key: *const u8, cache: *mut u8, n: usize, state: *mut u8) -> u32;
        pub fn thiraduan_step(log: *const u8, n: usize, state: *mut u8, cache: *mut u8, k: usize, told: *mut u64) -> u32;
        pub fn thiraduan_run(log: *const u8, n: usize, state: *mut u8, cache: *mut u8, k: usize, told: *mut u64) -> u32;
        pub fn thiraduan_settled(state: *const u8, epoch: u64, yes: *mut u8) -> u32;
        pub fn thiraduan_read(log: *const u8, n: usize, used: *mut u64, numbers: *mut u64, key: *mut u8, value: *mut u8) -> u32;
        pub fn thiraduan_write(numbers: *const u64, key: *const u8, value: *const u8, out: *mut u8, n: usize, used: *mut u64) -> u32;
        pub fn thiraduan_expand(key: *const u8, out: *mut u8);
        pub fn thiraduan_tag_with(expanded: *const u8, m: *const u8, n: usize, out: *mut u8) -> u32;
        pub fn thiraduan_encrypt(expanded: *const u8, block: *const u8, out: *mut u8);
    }
}

pub fn digest(message: &[u8], out: &mut [u8; 32]) -> u32 {
    unsafe { raw::thiraduan_digest(message.as_ptr(), message.len(), out.as_mut_ptr()) }
}

pub fn tag(key: &[u8; 16], message: &[u8], out: &mut [u8; 16]) -> u32 {
    unsafe { raw::thiraduan_tag(key.as_ptr(), message.as_ptr(), message.len(), out.as_mut_ptr()) }
}

pub fn term_key(code: &[u8], term: &[u8], out: &mut [u8; 32]) -> u32 {
    unsafe { raw::thiraduan_term_key(code.as_ptr(), code.len(), term.as_ptr(), term.len(), out.as_mut_ptr()) }
}

/// 1 or 0 to `yes`.
pub fn fingerprint(sealed: &[u8], fingerprint: &[u8; 32], yes: &mut u8) -> u32 {
    unsafe { raw::thiraduan_fingerprint(sealed.as_ptr(), sealed.len(), fingerprint.as_ptr(), yes) }
}

pub fn open(key: &[u8; 16], cache: &mut [u8], state: &mut [u8; STATE_BYTES]) -> u32 {
    unsafe { raw::thiraduan_open(key.as_ptr(), cache.as_mut_ptr(), cache.len(), state.as_mut_ptr()) }
}

/// `told`: bytes used; the epoch of the answer, or 0.
pub fn step(log: &[u8], state: &mut [u8; STATE_BYTES], cache: &mut [u8], told: &mut [u64; 2]) -> u32 {
    unsafe { raw::thiraduan_step(log.as_ptr(), log.len(), state.as_mut_ptr(), cache.as_mut_ptr(), cache.len(), told.as_mut_ptr()) }
}

/// `told`: the last epoch settled, entries met, entries accepted, bytes used.
pub fn run(log: &[u8], state: &mut [u8; STATE_BYTES], cache: &mut [u8], told: &mut [u64; 4]) -> u32 {
    unsafe { raw::thiraduan_run(log.as_ptr(), log.len(), state.as_mut_ptr(), cache.as_mut_ptr(), cache.len(), told.as_mut_ptr()) }
}

/// 1 or 0 to `yes`.
pub fn settled(state: &[u8; STATE_BYTES], epoch: u64, yes: &mut u8) -> u32 {
    unsafe { raw::thiraduan_settled(state.as_ptr(), epoch, yes) }
}

/// An entry's fields: tag, s, p, epoch and time; its key; its value, then zeros.
#[derive(Clone, Copy, PartialEq, Eq, Debug)]
pub struct Fields {
    pub numbers: [u64; 5],
    pub key: [u8; 34],
    pub value: [u8; 137],
}

impl Fields {
    pub const ZERO: Fields = Fields { numbers: [0; 5], key: [0; 34], value: [0; 137] };
}

pub fn read(log: &[u8], used: &mut u64, fields: &mut Fields) -> u32 {
    let Fields { numbers, key, value } = fields;
    unsafe { raw::thiraduan_read(log.as_ptr(), log.len(), used, numbers.as_mut_ptr(), key.as_mut_ptr(), value.as_mut_ptr()) }
}

pub fn write(fields: &Fields, out: &mut [u8], used: &mut u64) -> u32 {
    let Fields { numbers, key, value } = fields;
    unsafe { raw::thiraduan_write(numbers.as_ptr(), key.as_ptr(), value.as_ptr(), out.as_mut_ptr(), out.len(), used) }
}

pub fn expand(key: &[u8; 16], out: &mut [u8; 176]) {
    unsafe { raw::thiraduan_expand(key.as_ptr(), out.as_mut_ptr()) }
}

pub fn tag_with(expanded: &[u8; 176], message: &[u8], out: &mut [u8; 16]) -> u32 {
    unsafe { raw::thiraduan_tag_with(expanded.as_ptr(), message.as_ptr(), message.len(), out.as_mut_ptr()) }
}

pub fn encrypt(expanded: &[u8; 176], block: &[u8; 16], out: &mut [u8; 16]) {
    unsafe { raw::thiraduan_encrypt(expanded.as_ptr(), block.as_ptr(), out.as_mut_ptr()) }
}
