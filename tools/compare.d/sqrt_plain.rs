//! The other side in a run of the two routes of the root: our plain root's value, and libm's status.

use oracle::api;

extern "C" {
    fn pk_plain_sqrt64(x: u64) -> u64;
    fn pk_plain_sqrt32(x: u32) -> u32;
}

// As those of the table, both take and return numbers, are proved to end, and touch nothing else.
pub fn sqrt64(x: u64) -> api::Answer<u64> {
    (unsafe { pk_plain_sqrt64(x) }, api::sqrt64(x).1)
}
pub fn sqrt32(x: u32) -> api::Answer<u32> {
    (unsafe { pk_plain_sqrt32(x) }, api::sqrt32(x).1)
}
