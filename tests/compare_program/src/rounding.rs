//! Rounding and hints: every edge, the ends of i32, and random numbers.

use second::set::{ALPHA, GAMMA2, Q, STEPS, T_STEP};

use crate::calls::Calls;

const RANDOM: usize = 3_000_000;

/// Every multiple of `step` from `from` to `to`, with two numbers on either side. What does not fit an i32 is left out.
fn around(step: i64, from: i64, to: i64) -> impl Iterator<Item = i32> {
    (from.div_euclid(step)..=to.div_euclid(step))
        .flat_map(move |k| (-2..=2).map(move |near| k * step + near))
        .filter_map(|r| i32::try_from(r).ok())
}

pub fn compare(calls: &mut Calls) {
    calls.part("rounding and hints");
    let (q, gamma2) = (i64::from(Q), i64::from(GAMMA2));
    let (lowest, highest) = (i64::from(i32::MIN), i64::from(i32::MAX));

    // Multiples of half a step are the half steps and the whole ones. First as residues, each with every multiple of q
    // that an i32 takes, then as they are.
    let mut edges = Vec::new();
    for residue in around(gamma2, 0, q) {
        for times in lowest.div_euclid(q)..=highest.div_euclid(q) {
            edges.extend(i32::try_from(i64::from(residue) + times * q));
        }
    }
    edges.extend(around(gamma2, lowest, highest));
    // Multiples of 2048 are those of 4096 and the halves between them.
    let half = i64::from(T_STEP) / 2;
    edges.extend(around(half, -q, 2 * q));
    for residue in around(half, 0, q) {
        let times = i64::from(calls.numbers.between(-254, 254));
        edges.extend(i32::try_from(i64::from(residue) + times * q));
    }
    edges.extend(around(q, lowest, highest));
    edges.extend((0..1000).flat_map(|near| [i32::MIN + near, i32::MAX - near, near, -near]));
    calls.report.progress(&format!("{} edges", edges.len()));
    for &r in &edges {
        calls.round(r);
        let z = calls.numbers.any();
        calls.make_hint(z, r);
    }

    // Hints between edges: from each half step and each step to every other one, and just short of it or past it.
    let steps: Vec<i32> = (0..=2 * STEPS).flat_map(|k| (-1..=1).map(move |near| k * GAMMA2 + near)).collect();
    for &r in &steps {
        for &target in &steps {
            calls.make_hint(target - r, r);
        }
    }
    // Numbers whose sum passes the range of an i32.
    let ends =
        [i32::MIN, i32::MIN + 1, -Q - 1, -Q, -ALPHA, -GAMMA2, -1, 0, 1, GAMMA2, ALPHA, Q, i32::MAX - 1, i32::MAX];
    for r in ends {
        for z in ends {
            calls.make_hint(z, r);
        }
        for _ in 0..200 {
            let other = calls.numbers.any();
            calls.make_hint(other, r);
            calls.make_hint(r, other);
        }
        for hint in [2, 3, 255, 256, 257, 0x1_0000, 0x1_0001, 0x8000_0000, 0x8000_0001, u32::MAX] {
            let answer = calls.use_hint(hint, r);
            calls.must("a hint other than 0 or 1", answer, 6);
        }
    }

    for count in 0..RANDOM {
        if count % 1_000_000 == 0 {
            calls.report.progress(&format!("random number {count} of {RANDOM}"));
        }
        let r = calls.numbers.any();
        calls.round(r);
        let z = calls.numbers.any();
        calls.make_hint(z, r);
        let small = calls.numbers.between(-ALPHA, ALPHA);
        calls.make_hint(small, r);
        if count % 100 == 0 {
            let hint = calls.numbers.any() as u32;
            calls.use_hint(hint, r);
        }
    }
    worked(calls);
    calls.report.part_done();
}

/// Document 01's cases 1 to 14, by its own numbers.
fn worked(calls: &mut Calls) {
    use crate::archive::*;
    use crate::report::Shown;
    let mut case = |name: &'static str, r: i32, ours: i64, expected: i64| {
        calls.report.plain();
        if ours != expected {
            let lines = [format!("archive: {ours}"), format!("document 01: {expected}")];
            calls.report.differs(name, &[Shown::Number("r", i64::from(r))], &lines);
        }
    };
    for (r, high, low) in [
        (0, 0, 0),
        (131274, 0, 131274),
        (131275, 1, -131273),
        (8270262, 31, 131274),
        (8270263, 0, -131274),
        (8401536, 0, -1),
    ] {
        case("ncc_high_bits", r, i64::from(unsafe { ncc_high_bits(r) }), high);
        case("ncc_low_bits", r, i64::from(unsafe { ncc_low_bits(r) }), low);
    }
    for (hint, r, expected) in [(1, 0, 31), (1, 1, 1), (1, 8270262, 0), (0, 8401536, 0)] {
        let mut high = 99;
        case("ncc_use_hint", r, unsafe { ncc_use_hint(hint, r, &mut high) } as i64, 0);
        case("ncc_use_hint", r, i64::from(high), expected);
    }
    case("ncc_make_hint", 131274, i64::from(unsafe { ncc_make_hint(1, 131274) }), 1);
    for (r, high, low) in [(2048, 0, 2048), (2049, 1, -2047), (8401536, 2051, 640)] {
        case("ncc_power2_high", r, i64::from(unsafe { ncc_power2_high(r) }), high);
        case("ncc_power2_low", r, i64::from(unsafe { ncc_power2_low(r) }), low);
    }
}
