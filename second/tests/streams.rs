//! The samplers over lent streams, short ones among them.

mod common;

use common::hashed;
use second::refusal::{Buffer, Refusal};
use second::sampling::*;
use second::set::{N, Q};

type Sampler = fn(&[u8], &mut [i32]) -> Result<(), Refusal>;

fn dry(sampler: Sampler, stream: &[u8]) {
    let mut out = [-9; N];
    assert_eq!(sampler(stream, &mut out), Err(Refusal::Dry));
    assert_eq!(out, [-9; N]);
}

fn sampled(sampler: Sampler, stream: &[u8]) -> [i32; N] {
    let mut out = [-9; N];
    sampler(stream, &mut out).unwrap();
    out
}

fn group(value: i32) -> [u8; 3] {
    let bytes = value.to_le_bytes();
    [bytes[0], bytes[1], bytes[2]]
}

/// A length is refused before the stream is looked at.
#[test]
fn lengths_come_first() {
    for sampler in [sample_a as Sampler, sample_s, sample_challenge] {
        for length in [0, N - 1, N + 1] {
            for stream in [vec![], vec![0; 20_000]] {
                let mut out = vec![-9; length];
                assert_eq!(sampler(&stream, &mut out), Err(Refusal::Length(Buffer::Coefficients)));
                assert_eq!(out, vec![-9; length]);
            }
        }
        dry(sampler, &[]);
    }
}

#[test]
fn a_skips_what_is_not_below_q() {
    let mut stream = Vec::new();
    let mut expected = [0; N];
    for (index, place) in expected.iter_mut().enumerate() {
        *place = [0, 1, Q - 1, 7 * index as i32][index % 4];
        stream.extend(group([Q, Q + 1, 0xff_ffff][index % 3]));
        stream.extend(group(*place));
    }
    assert_eq!(sampled(sample_a, &stream), expected);
    for cut in [1, 2, 3, 4, 1000] {
        dry(sample_a, &stream[..stream.len() - cut]);
    }
    // More than is needed changes nothing.
    stream.extend([5; 100]);
    assert_eq!(sampled(sample_a, &stream), expected);
}

#[test]
fn a_from_the_shortest_stream() {
    assert_eq!(sampled(sample_a, &[0; 3 * N]), [0; N]);
    dry(sample_a, &[0; 3 * N - 1]);
    dry(sample_a, &[0xff; 20_000]);
}

#[test]
fn s_reads_two_bits_lowest_first() {
    // Codes 0, 1, 2, 3, so 1, 0, -1 and one that is skipped.
    let stream = [0b11_10_01_00; 384];
    let expected: Vec<i32> = (0..N).map(|i| [1, 0, -1][i % 3]).collect();
    assert_eq!(sampled(sample_s, &stream).as_slice(), expected);
    dry(sample_s, &stream[..383]);
    assert_eq!(sampled(sample_s, &[0; 288]), [1; N]);
    dry(sample_s, &[0; 287]);
    assert_eq!(sampled(sample_s, &[0b10_10_10_10; 289]), [-1; N]);
    dry(sample_s, &[0xff; 5000]);
}

fn challenge_stream(signs: u64, draws: &[u16]) -> Vec<u8> {
    let mut stream = signs.to_le_bytes().to_vec();
    stream.extend(draws.iter().flat_map(|draw| draw.to_le_bytes()));
    stream
}

#[test]
fn challenge_moves_the_old_value_up() {
    // All draws 0: each step moves the sign before it to the top.
    let signs = 0b1_0011_0101_1100_0111_0000_1010u64;
    let sign = |step: usize| if signs >> step & 1 == 1 { -1 } else { 1 };
    let stream = challenge_stream(signs, &[0; 25]);
    let mut expected = [0; N];
    expected[0] = sign(24);
    for step in 0..24 {
        expected[1128 + step] = sign(step);
    }
    assert_eq!(sampled(sample_challenge, &stream), expected);
    assert_eq!(stream.len(), 58);
    for length in [1, 7, 8, 9, 56, 57] {
        dry(sample_challenge, &stream[..length]);
    }
}

#[test]
fn challenge_draws_again_above_i() {
    // In step k the bound is 1127 + k. It may be drawn itself; one more may not.
    let mut draws = Vec::new();
    for step in 0..25 {
        draws.extend([1128 + step, 2047, 1127 + step]);
    }
    let expected: Vec<i32> = (0..N).map(|place| i32::from(place >= 1127)).collect();
    // The signs above the 25th are not read.
    let stream = challenge_stream(!0 << 25, &draws);
    assert_eq!(sampled(sample_challenge, &stream).as_slice(), expected);
    dry(sample_challenge, &stream[..stream.len() - 1]);

    // Only the low 11 bits count.
    let high: Vec<u16> = draws.iter().map(|draw| draw | 0xf800).collect();
    assert_eq!(sampled(sample_challenge, &challenge_stream(0, &high)).as_slice(), expected);
    dry(sample_challenge, &[0xff; 544]);
}

#[test]
fn challenge_has_25_signs() {
    for number in 0..200u8 {
        let c = sampled(sample_challenge, &hashed(&[number], 544));
        assert_eq!(c.iter().filter(|&&value| value != 0).count(), 25);
        assert!(c.iter().all(|value| (-1..=1).contains(value)));
    }
}

#[test]
fn masks() {
    let mut out = [0; N];
    mask(&[0; 2736], &mut out).unwrap();
    assert_eq!(out, [262144; N]);
    mask(&[0xff; 2736], &mut out).unwrap();
    assert_eq!(out, [-262143; N]);
    assert_eq!(mask(&[0; 2735], &mut out), Err(Refusal::Length(Buffer::Packed)));
    assert_eq!(mask(&[0; 2737], &mut out[1..]), Err(Refusal::Length(Buffer::Packed)));
    assert_eq!(mask(&[0; 2736], &mut out[1..]), Err(Refusal::Length(Buffer::Coefficients)));
    assert_eq!(out, [-262143; N]);
}
