//! The samplers, over a stream that someone else made.
//!
//! Each first looks at the length of its output, then at the stream. The
//! element is made aside, so that a dry stream leaves the output as it was.

use crate::packing::unpack_mask;
use crate::refusal::{need_length, Buffer, Refusal};
use crate::ring::Element;
use crate::set::{ETA, N, PLACE_BITS, Q, SIGN_BYTES, TAU};

/// Gives the first N of the coefficients to `out`, or is dry.
#[inline]
fn fill(mut coefficients: impl Iterator<Item = i32>, out: &mut [i32]) -> Result<(), Refusal> {
    let mut element: Element = [0; N];
    for place in &mut element {
        *place = coefficients.next().ok_or(Refusal::Dry)?;
    }
    out.copy_from_slice(&element);
    Ok(())
}

/// The public element: groups of 3 bytes, those below q.
pub fn sample_a(stream: &[u8], out: &mut [i32]) -> Result<(), Refusal> {
    need_length(out.len(), N, Buffer::Coefficients)?;
    // chunks_exact leaves out a last group that is cut short.
    let groups = stream
        .chunks_exact(3)
        .map(|group| i32::from(group[0]) | i32::from(group[1]) << 8 | i32::from(group[2]) << 16);
    fill(groups.filter(|&group| group < Q), out)
}

/// A secret element: codes of 2 bits, lowest first, without code 3.
pub fn sample_s(stream: &[u8], out: &mut [i32]) -> Result<(), Refusal> {
    need_length(out.len(), N, Buffer::Coefficients)?;
    let codes = stream.iter().flat_map(|&byte| [0, 2, 4, 6].map(|shift| i32::from(byte >> shift & 3)));
    fill(codes.filter(|&code| code < 3).map(|code| ETA - code), out)
}

/// A challenge (002, Algorithm 1): 25 ones and minus ones among zeros.
pub fn sample_challenge(stream: &[u8], out: &mut [i32]) -> Result<(), Refusal> {
    need_length(out.len(), N, Buffer::Coefficients)?;
    if stream.len() < SIGN_BYTES {
        return Err(Refusal::Dry);
    }
    let (sign_bytes, rest) = stream.split_at(SIGN_BYTES);
    let minus = |step: usize| sign_bytes[step / 8] >> (step % 8) & 1 == 1;
    let mut draws = rest
        .chunks_exact(2)
        .map(|pair| usize::from(u16::from_le_bytes([pair[0], pair[1]]) & ((1 << PLACE_BITS) - 1)));

    let mut element: Element = [0; N];
    for step in 0..TAU {
        let i = N - TAU + step;
        // A draw above i is dropped and drawn again, never reduced.
        let j = draws.find(|&j| j <= i).ok_or(Refusal::Dry)?;
        element[i] = element[j];
        element[j] = if minus(step) { -1 } else { 1 };
    }
    out.copy_from_slice(&element);
    Ok(())
}

/// A mask: 19-bit codes, every one of them allowed. It takes one fixed number
/// of stream bytes, so another length is refused as a length.
pub fn mask(stream: &[u8], out: &mut [i32]) -> Result<(), Refusal> {
    unpack_mask(stream, out)
}
