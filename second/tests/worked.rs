//! The worked cases 1 to 16 of 01, and the rounding rules over their whole range.

mod common;

use common::Numbers;
use second::refusal::Refusal;
use second::ring::product;
use second::rounding::*;
use second::set::*;

#[test]
fn cases_1_to_6_decompose() {
    assert_eq!(decompose(0), (0, 0));
    assert_eq!(decompose(131274), (0, 131274));
    assert_eq!(decompose(131275), (1, -131273));
    assert_eq!(decompose(8270262), (31, 131274));
    assert_eq!(decompose(8270263), (0, -131274));
    assert_eq!(decompose(8401536), (0, -1));
}

#[test]
fn cases_7_to_10_use_hint() {
    assert_eq!(use_hint(1, 0), Ok(31));
    assert_eq!(use_hint(1, 1), Ok(1));
    assert_eq!(use_hint(1, 8270262), Ok(0));
    assert_eq!(use_hint(0, 8401536), Ok(0));
}

#[test]
fn case_11_make_hint() {
    assert_eq!(make_hint(1, 131274), 1);
}

#[test]
fn cases_12_to_14_power2round() {
    assert_eq!(power2round(2048), (0, 2048));
    assert_eq!(power2round(2049), (1, -2047));
    assert_eq!(power2round(8401536), (2051, 640));
}

#[test]
fn cases_15_and_16_wrap() {
    let power = |exponent: usize| {
        let mut element = [0; N];
        element[exponent] = 1;
        element
    };
    let mut out = [0; N];
    product(&power(1151), &power(1), &mut out).unwrap();
    let mut expected = power(576);
    expected[0] = Q - 1;
    assert_eq!(out, expected);
    product(&power(1151), &power(577), &mut out).unwrap();
    let mut expected = [0; N];
    expected[0] = Q - 1;
    assert_eq!(out, expected);
}

/// Walks all residues and keeps the expected answer by counting, without a
/// division: the step rises when the low part passes half a step.
#[test]
fn decompose_over_all_residues() {
    let (mut high, mut low) = (0u32, 0i32);
    for r in 0..Q {
        let expected = if high == 32 { (0, low - 1) } else { (high, low) };
        assert_eq!(decompose(r), expected, "r = {r}");
        assert_eq!(high_bits(r), expected.0);
        assert_eq!(low_bits(r), expected.1);
        low += 1;
        if low > GAMMA2 {
            low = 1 - GAMMA2;
            high += 1;
        }
    }
    assert_eq!((high, low), (32, 1));
}

#[test]
fn power2round_over_all_residues() {
    let (mut high, mut low) = (0u32, 0i32);
    for r in 0..Q {
        assert_eq!(power2round(r), (high, low), "r = {r}");
        low += 1;
        if low > 2048 {
            low = -2047;
            high += 1;
        }
    }
    assert_eq!(high, 2051);
}

const EDGES: [i32; 13] =
    [i32::MIN, i32::MIN + 1, -Q - 1, -Q, 1 - Q, -131275, -1, 0, 1, Q - 1, Q, i32::MAX - 1, i32::MAX];

fn some_numbers() -> Vec<i32> {
    let mut numbers = Numbers::new("rounding");
    EDGES.into_iter().chain((0..2000).map(|_| numbers.any())).collect()
}

#[test]
fn every_i32_is_reduced_first() {
    for r in some_numbers() {
        let reduced = (i64::from(r).rem_euclid(i64::from(Q))) as i32;
        assert_eq!(decompose(r), decompose(reduced));
        assert_eq!(power2round(r), power2round(reduced));
        for h in 0..2 {
            assert_eq!(use_hint(h, r), use_hint(h, reduced));
        }
    }
}

/// The sum is taken in whole numbers, so it may pass the range of i32.
#[test]
fn make_hint_does_not_wrap() {
    for r in EDGES {
        for z in some_numbers() {
            let sum = (i64::from(r) + i64::from(z)).rem_euclid(i64::from(Q)) as i32;
            assert_eq!(make_hint(z, r), u32::from(high_bits(r) != high_bits(sum)));
        }
    }
    // A wrapped sum would be i32::MIN here.
    let whole = (i64::from(i32::MAX) + 1).rem_euclid(i64::from(Q)) as i32;
    assert_eq!(make_hint(1, i32::MAX) == 1, high_bits(whole) != high_bits(i32::MAX));
}

/// 002, Lemma 1, first point.
#[test]
fn a_hint_brings_the_high_bits_back() {
    let mut numbers = Numbers::new("hints");
    for _ in 0..100_000 {
        let r = numbers.below(Q as usize) as i32;
        let z = numbers.below(ALPHA as usize + 1) as i32 - GAMMA2;
        assert_eq!(use_hint(make_hint(z, r), r), Ok(high_bits(r + z)));
    }
}

#[test]
fn other_hints_are_refused() {
    for h in [2, 3, u32::MAX] {
        assert_eq!(use_hint(h, 5), Err(Refusal::Hint));
    }
}

#[test]
fn centred_remainders() {
    assert_eq!([-3, -2, -1, 0, 1, 2, 3, 4].map(|x| centred(x, 4)), [1, 2, -1, 0, 1, 2, -1, 0]);
    assert_eq!([-3, -2, -1, 0, 1, 2, 3, 4].map(|x| centred(x, 5)), [2, -2, -1, 0, 1, 2, -2, -1]);
    assert_eq!(centred(7, 1), 0);
    for alpha in [2, 262548, i64::from(Q), i64::MAX, i64::MAX - 1] {
        for x in [i64::MIN, -1, 0, 1, alpha / 2, alpha / 2 + 1, i64::MAX] {
            let r = i128::from(centred(x, alpha));
            let alpha = i128::from(alpha);
            assert!(-alpha < 2 * r && 2 * r <= alpha);
            assert_eq!((i128::from(x) - r) % alpha, 0);
        }
    }
}

#[test]
fn norms() {
    assert_eq!(norm(&[]), 0);
    assert_eq!(norm(&[0, 3, -4]), 4);
    assert_eq!(norm(&[Q - 1]), 1);
    assert_eq!(norm(&[(Q - 1) / 2]), (Q - 1) / 2);
    assert_eq!(norm(&[(Q + 1) / 2]), (Q - 1) / 2);
    assert_eq!(norm(&[i32::MIN]), centred(i64::from(i32::MIN), i64::from(Q)).abs() as i32);
}
