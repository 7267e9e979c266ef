//! The samplers over lent streams of every kind of length.

use second::sampling::{sample_a, sample_challenge, sample_s};
use second::set::{N, Q};

use crate::archive::{ncc_sample_a, ncc_sample_challenge, ncc_sample_s};
use crate::calls::{Calls, ToNumbers};
use crate::numbers::Numbers;

const A: ToNumbers = ToNumbers { name: "ncc_sample_a", input: "stream", ours: ncc_sample_a, theirs: sample_a };
const S: ToNumbers = ToNumbers { name: "ncc_sample_s", input: "stream", ours: ncc_sample_s, theirs: sample_s };
const CHALLENGE: ToNumbers =
    ToNumbers { name: "ncc_sample_challenge", input: "stream", ours: ncc_sample_challenge, theirs: sample_challenge };

/// Compares on the stream as it is, exactly long enough, and up to seven bytes short of that or past it.
/// `needed` is how many bytes are used, if they are enough.
fn cut(calls: &mut Calls, sampler: &ToNumbers, stream: &[u8], needed: Option<usize>) {
    calls.into_numbers(sampler, stream, N);
    if let Some(needed) = needed {
        let (answer, _) = calls.into_numbers(sampler, &stream[..needed], N);
        calls.must("a stream that is exactly enough", answer, 0);
        for short in 1..=7 {
            let (answer, _) = calls.into_numbers(sampler, &stream[..needed - short], N);
            calls.must("a stream that is too short", answer, 7);
            calls.into_numbers(sampler, &stream[..(needed + short).min(stream.len())], N);
        }
    }
}

/// Groups of 3 bytes, the edges of q among them, with few or many that are skipped.
fn a_stream(numbers: &mut Numbers) -> Vec<u8> {
    let skipped = 2 + numbers.below(20);
    let edges = 2 + numbers.below(50);
    let mut stream = Vec::new();
    while stream.len() < 13_056 {
        let group = if numbers.once_in(skipped) {
            numbers.between(Q, 0xff_ffff)
        } else if numbers.once_in(edges) {
            numbers.pick(&[0, 1, Q - 2, Q - 1, Q, Q + 1, 0xff_ffff, 0x80_0000, 0x80_3200, 0x7f_ffff])
        } else {
            numbers.between(0, 0xff_ffff)
        };
        stream.extend(&group.to_le_bytes()[..3]);
    }
    stream
}

fn a_needed(stream: &[u8]) -> Option<usize> {
    let below = |group: &[u8]| i32::from_le_bytes([group[0], group[1], group[2], 0]) < Q;
    let mut taken = 0;
    for (index, group) in stream.chunks_exact(3).enumerate() {
        taken += usize::from(below(group));
        if taken == N {
            return Some(3 * (index + 1));
        }
    }
    None
}

fn s_needed(stream: &[u8]) -> Option<usize> {
    let mut taken = 0;
    for (index, byte) in stream.iter().enumerate() {
        taken += [0, 2, 4, 6].into_iter().filter(|shift| byte >> shift & 3 != 3).count();
        if taken >= N {
            return Some(index + 1);
        }
    }
    None
}

/// Signs, then draws at the bound of each step, just past it, far past it, or anywhere, with any upper bits.
fn challenge_stream(numbers: &mut Numbers) -> Vec<u8> {
    let mut stream = numbers.bytes(8);
    let kind = numbers.below(4);
    let mut step = 0;
    while step < 40 {
        let bound = 1127 + step.min(24);
        let draw = match kind {
            0 => numbers.below(2048),
            1 => numbers.pick(&[bound - 1, bound, bound + 1, 2047, 0]),
            2 => numbers.pick(&[bound, bound + 1]),
            _ => numbers.below(bound + 1),
        };
        step += usize::from(draw <= bound);
        let upper = if numbers.once_in(2) { numbers.below(32) } else { 0 };
        stream.extend(((draw | upper << 11) as u16).to_le_bytes());
    }
    stream
}

fn challenge_needed(stream: &[u8]) -> Option<usize> {
    let mut step = 0;
    for (index, draw) in stream.get(8..)?.chunks_exact(2).enumerate() {
        step += usize::from(usize::from(u16::from_le_bytes([draw[0], draw[1]]) & 2047) <= 1127 + step);
        if step == 25 {
            return Some(8 + 2 * (index + 1));
        }
    }
    None
}

pub fn compare(calls: &mut Calls) {
    calls.part("samplers");
    for count in 0..1500 {
        let random = calls.numbers.bytes(13_056);
        let stream = if count % 3 == 0 { random } else { a_stream(&mut calls.numbers) };
        cut(calls, &A, &stream, a_needed(&stream));

        let mut stream = calls.numbers.bytes(816);
        if count % 3 == 0 {
            // Few or no codes are skipped, so that the shortest streams come up.
            let mask = calls.numbers.pick(&[0x55, 0xaa, 0x00, 0x7f, 0xbf]);
            stream.iter_mut().for_each(|byte| *byte &= mask);
        }
        cut(calls, &S, &stream, s_needed(&stream));

        let random = calls.numbers.bytes(544);
        let stream = if count % 3 == 0 { random } else { challenge_stream(&mut calls.numbers) };
        cut(calls, &CHALLENGE, &stream, challenge_needed(&stream));
    }
    for sampler in [A, S, CHALLENGE] {
        // Streams that never give a coefficient, short streams, and streams longer than any use.
        for length in (0..70).chain([286, 287, 288, 289, 3454, 3455, 3456, 3457, 13_056, 20_000]) {
            for fill in [0x00, 0x55, 0xaa, 0xff] {
                calls.into_numbers(&sampler, &vec![fill; length], N);
            }
        }
        for length in [0, 1, 576, N - 1, N + 1, 2 * N] {
            for stream in [0, 8, 20_000] {
                let stream = calls.numbers.bytes(stream);
                calls.into_numbers(&sampler, &stream, length);
            }
        }
    }
    calls.report.part_done();
}
