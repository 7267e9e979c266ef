//! Rounding and hints (002, Algorithms 2 to 7), over every i32.
//!
//! All sums are made in i64. There no i32 can overflow, and a sum is a whole
//! number before it is reduced, as 01 asks.

use crate::refusal::Refusal;
use crate::set::{ALPHA, Q, STEPS, T_STEP};

/// The remainder of `x` by `alpha`, above -alpha/2 and at most alpha/2.
/// For an odd alpha that is -(alpha-1)/2 to (alpha-1)/2.
///
/// `alpha` must be above 0.
#[inline]
pub fn centred(x: i64, alpha: i64) -> i64 {
    let plain = x.rem_euclid(alpha);
    // Half an even alpha stays as it is. Only what lies above it goes down.
    if plain > alpha / 2 {
        plain - alpha
    } else {
        plain
    }
}

/// Decompose, over a whole number that may not fit an i32.
#[inline]
fn decompose_whole(r: i64) -> (u32, i32) {
    let (q, alpha) = (i64::from(Q), i64::from(ALPHA));
    let r = r.rem_euclid(q);
    let r0 = centred(r, alpha);
    // The top half step belongs to step 0, or it would be step 32.
    if r - r0 == q - 1 {
        (0, (r0 - 1) as i32)
    } else {
        (((r - r0) / alpha) as u32, r0 as i32)
    }
}

/// The high part, 0..31, and the low part.
#[inline]
pub fn decompose(r: i32) -> (u32, i32) {
    decompose_whole(i64::from(r))
}

/// The high part of Decompose.
#[inline]
pub fn high_bits(r: i32) -> u32 {
    decompose(r).0
}

/// The low part of Decompose.
#[inline]
pub fn low_bits(r: i32) -> i32 {
    decompose(r).1
}

/// 1 exactly if the high bits of `r` and of `r + z` differ.
#[inline]
pub fn make_hint(z: i32, r: i32) -> u32 {
    let (before, _) = decompose(r);
    let (after, _) = decompose_whole(i64::from(r) + i64::from(z));
    u32::from(before != after)
}

/// The high bits of `r`, moved one step by a hint of 1.
#[inline]
pub fn use_hint(h: u32, r: i32) -> Result<u32, Refusal> {
    let steps = STEPS as u32;
    let (r1, r0) = decompose(r);
    match h {
        0 => Ok(r1),
        1 if r0 > 0 => Ok((r1 + 1) % steps),
        1 => Ok((r1 + steps - 1) % steps),
        _ => Err(Refusal::Hint),
    }
}

/// `r`, reduced to 0..q-1, as r1 * 4096 + r0.
#[inline]
pub fn power2round(r: i32) -> (u32, i32) {
    let step = i64::from(T_STEP);
    let r = i64::from(r).rem_euclid(i64::from(Q));
    let r0 = centred(r, step);
    (((r - r0) / step) as u32, r0 as i32)
}

/// The largest magnitude of the values, centred by q. No values give 0.
pub fn norm(values: &[i32]) -> i32 {
    values.iter().map(|&value| centred(i64::from(value), i64::from(Q)).abs() as i32).max().unwrap_or(0)
}
