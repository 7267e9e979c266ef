//! The product of two elements.

use second::set::{N, Q};

use crate::calls::Calls;
use crate::numbers::Numbers;
use crate::report::Shown;

fn power(exponent: usize, value: i32) -> Vec<i32> {
    let mut element = vec![0; N];
    element[exponent] = value;
    element
}

/// An element of one of several kinds.
fn element(numbers: &mut Numbers) -> Vec<i32> {
    match numbers.below(8) {
        0 => (0..N).map(|_| numbers.any()).collect(),
        1 => (0..N).map(|_| numbers.between(0, Q - 1)).collect(),
        2 => (0..N).map(|_| numbers.between(-1, 1)).collect(),
        3 => (0..N).map(|_| numbers.pick(&[0, 1, -1, Q, -Q, Q - 1, 1 - Q, i32::MIN, i32::MAX])).collect(),
        4 => vec![numbers.pick(&[Q - 1, 1, -1, i32::MIN, i32::MAX, 0, Q, (Q - 1) / 2]); N],
        5 => {
            let mut sparse = vec![0; N];
            for _ in 0..25 {
                sparse[numbers.below(N)] = numbers.pick(&[1, -1]);
            }
            sparse
        }
        6 => {
            let mut sparse = vec![0; N];
            for _ in 0..numbers.below(40) {
                sparse[numbers.below(N)] = numbers.any();
            }
            sparse
        }
        _ => power(numbers.below(N), numbers.any()),
    }
}

pub fn compare(calls: &mut Calls) {
    calls.part("product");
    // Powers whose exponents add up to each of the three ranges, and to their ends.
    for sum in [0, 575, 576, 1150, 1151, 1152, 1153, 1726, 1727, 1728, 1729, 2301, 2302] {
        for first in [sum.min(N - 1), sum - sum.min(N - 1), sum / 2] {
            if sum - first < N {
                for value in [1, -1, Q - 1, i32::MIN, i32::MAX] {
                    calls.product(&power(first, value), &power(sum - first, 1), N);
                    calls.product(&power(first, 1), &power(sum - first, value), N);
                }
            }
        }
    }
    // Document 01's cases 15 and 16, by its own numbers.
    for (other, expected) in [(1, vec![(0, Q - 1), (576, 1)]), (577, vec![(0, Q - 1)])] {
        let (first, other) = (power(1151, 1), power(other, 1));
        let found = calls.product(&first, &other, N);
        let mut element = vec![0; N];
        for (index, value) in expected {
            element[index] = value;
        }
        if found != element {
            let shown = [Shown::Numbers("first", &first), Shown::Numbers("second", &other)];
            calls.report.differs("ncc_product", &shown, &["a worked case of document 01".into()]);
        }
    }
    for count in 0..4000 {
        if count % 2_000 == 0 {
            calls.report.progress(&format!("random product {count} of 4000"));
        }
        let (first, other) = (element(&mut calls.numbers), element(&mut calls.numbers));
        calls.product(&first, &other, N);
    }
    // Every choice of right and wrong lengths, the wrong ones of several kinds.
    for wrong in [0, 1, 576, N - 1, N + 1, 2 * N] {
        for choice in 0..8 {
            let length = |bit: usize| if choice >> bit & 1 == 1 { wrong } else { N };
            let first: Vec<i32> = (0..length(0)).map(|_| calls.numbers.any()).collect();
            let other: Vec<i32> = (0..length(1)).map(|_| calls.numbers.any()).collect();
            calls.product(&first, &other, length(2));
        }
    }
    calls.report.part_done();
}
