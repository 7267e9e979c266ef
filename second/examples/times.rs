//! Prints measured times and try counts. Run with --release.

use std::hint::black_box;
use std::time::Instant;

use second::ring::{multiply, product, residues};
use second::sampling::{sample_a, sample_challenge};
use second::scheme::{check, make_keys, sign, tries};
use second::set::*;
use second::shake::shake256;

/// Microseconds of one call, the best mean of five batches.
fn time(batch: u32, mut call: impl FnMut()) -> f64 {
    (0..5)
        .map(|_| {
            let start = Instant::now();
            for _ in 0..batch {
                call();
            }
            start.elapsed().as_secs_f64() * 1e6 / f64::from(batch)
        })
        .fold(f64::INFINITY, f64::min)
}

fn main() {
    let mut stream = [0; A_STREAM];
    let (mut a, mut b, mut c, mut out) = ([0; N], [0; N], [0; N], [0; N]);
    shake256(b"a", &mut stream);
    sample_a(&stream, &mut a).unwrap();
    shake256(b"b", &mut stream);
    sample_a(&stream, &mut b).unwrap();
    sample_challenge(&stream[..CHALLENGE_STREAM], &mut c).unwrap();
    println!(
        "shake256, 13,056 bytes out: {:9.2} us",
        time(100, || shake256(black_box(b"b"), black_box(&mut stream)))
    );
    println!(
        "product, dense:             {:9.2} us",
        time(200, || product(black_box(&a), black_box(&b), &mut out).unwrap())
    );
    println!(
        "product, challenge first:   {:9.2} us",
        time(1000, || product(black_box(&c), black_box(&b), &mut out).unwrap())
    );
    let (ra, rb, rc) = (residues(&a), residues(&b), residues(&c));
    println!(
        "multiply, dense:            {:9.2} us",
        time(200, || {
            black_box(multiply(black_box(&ra), black_box(&rb)));
        })
    );
    println!(
        "multiply, challenge first:  {:9.2} us",
        time(1000, || {
            black_box(multiply(black_box(&rc), black_box(&rb)));
        })
    );

    let mut public_key = [0; PUBLIC_KEY];
    let mut secret_key = [0; SECRET_KEY];
    let mut signature = [0; SIGNATURE];
    println!(
        "make_keys:                  {:9.2} us",
        time(100, || make_keys(black_box(&[1; 32]), &[2; 32], &mut public_key, &mut secret_key).unwrap())
    );

    let mut total = 0;
    let start = Instant::now();
    for number in 0..1000u32 {
        let answer = sign(&secret_key, &number.to_le_bytes(), 1000, &mut signature);
        assert!(answer.refusal.is_none());
        total += answer.tries;
    }
    let spent = start.elapsed().as_secs_f64() * 1e6;
    println!("sign, mean of 1,000:        {:9.2} us", spent / 1000.0);
    println!("sign, per try:              {:9.2} us", spent / f64::from(total));
    println!("tries, mean of 1,000:       {:9.3}", f64::from(total) / 1000.0);

    let mut reasons = [0; 6];
    for number in 0..1000u32 {
        for reason in tries(&secret_key, &number.to_le_bytes(), 1000) {
            reasons[usize::from(reason)] += 1;
        }
    }
    println!("passed, then failed for 1 to 5: {reasons:?}");

    let last = 999u32.to_le_bytes();
    println!(
        "check:                      {:9.2} us",
        time(200, || check(black_box(&public_key), black_box(&signature), black_box(&last)).unwrap())
    );
}
