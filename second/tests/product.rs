//! The product against a slow one that shares nothing with it.

mod common;

use common::Numbers;
use second::refusal::{Buffer, Refusal};
use second::ring::product;
use second::set::{N, Q};

/// Multiplies with a reduction at each step, then divides by
/// X^1152 - X^576 + 1 from the highest exponent down.
fn slow(a: &[i32], b: &[i32]) -> Vec<i32> {
    let q = i64::from(Q);
    let mut columns = vec![0i64; 2 * N - 1];
    for (i, &x) in a.iter().enumerate() {
        for (j, &y) in b.iter().enumerate() {
            columns[i + j] = (columns[i + j] + i64::from(x) * i64::from(y) % q) % q;
        }
    }
    while columns.len() > N {
        let top = columns.pop().unwrap();
        let degree = columns.len();
        columns[degree - 576] += top;
        columns[degree - 1152] -= top;
    }
    columns.into_iter().map(|column| column.rem_euclid(q) as i32).collect()
}

fn agree(a: &[i32], b: &[i32]) {
    let mut out = [77; N];
    product(a, b, &mut out).unwrap();
    assert_eq!(out.as_slice(), slow(a, b));
}

fn power(exponent: usize, value: i32) -> Vec<i32> {
    let mut element = vec![0; N];
    element[exponent] = value;
    element
}

#[test]
fn any_numbers() {
    let mut numbers = Numbers::new("product");
    for _ in 0..5 {
        let a: Vec<i32> = (0..N).map(|_| numbers.any()).collect();
        let b: Vec<i32> = (0..N).map(|_| numbers.any()).collect();
        agree(&a, &b);
        agree(&b, &a);
    }
}

/// The largest sums the columns can hold.
#[test]
fn largest_and_lowest() {
    for x in [Q - 1, -1, 1, i32::MAX, i32::MIN, 0, Q] {
        for y in [Q - 1, i32::MIN, 1] {
            agree(&[x; N], &[y; N]);
        }
    }
}

/// From no row to several groups of rows, close together and far apart.
#[test]
fn sparse_first_factors() {
    let mut numbers = Numbers::new("sparse");
    let b: Vec<i32> = (0..N).map(|_| numbers.any()).collect();
    for count in (0..28).chain([400, 1151]) {
        let mut a = vec![0; N];
        for _ in 0..count {
            a[numbers.below(N)] = numbers.any();
        }
        agree(&a, &b);
    }
    for count in [7, 8, 9, 16, 17] {
        let mut a = vec![0; N];
        a[N - count..].fill(-1);
        agree(&a, &b);
        a[0] = 1;
        agree(&a, &b);
        a.rotate_left(N - count);
        agree(&a, &b);
    }
    let mut ends = vec![0; N];
    for i in 0..4 {
        ends[i] = 5;
        ends[N - 1 - i] = -6;
    }
    agree(&ends, &b);
}

#[test]
fn all_ends_of_the_three_ranges() {
    for (i, j) in [
        (0, 0),
        (0, 1151),
        (1, 1151),
        (576, 576),
        (1151, 576),
        (1151, 577),
        (864, 864),
        (1150, 1151),
        (1151, 1151),
    ] {
        agree(&power(i, 1), &power(j, -3));
    }
    // X^1728 = -1.
    let mut out = [0; N];
    product(&power(864, 1), &power(864, 1), &mut out).unwrap();
    assert_eq!(out.as_slice(), power(0, Q - 1));
}

#[test]
fn lengths_in_order_and_outputs_kept() {
    let (right, wrong) = ([1; N], [1; N + 1]);
    let mut out = [9; N];
    let mut short = [9; N - 1];
    assert_eq!(product(&wrong, &[], &mut short), Err(Refusal::Length(Buffer::First)));
    assert_eq!(product(&right, &wrong, &mut short), Err(Refusal::Length(Buffer::Second)));
    assert_eq!(product(&right, &right, &mut short), Err(Refusal::Length(Buffer::Coefficients)));
    assert_eq!(product(&right[1..], &right, &mut out), Err(Refusal::Length(Buffer::First)));
    assert_eq!(product(&right, &[], &mut out), Err(Refusal::Length(Buffer::Second)));
    assert_eq!((short, out), ([9; N - 1], [9; N]));
}
