//! SHAKE256.

use crate::calls::Calls;
use crate::report::hex;

/// Around the rate of 136 bytes, and the lengths that the scheme uses.
const LENGTHS: [usize; 18] = [0, 1, 7, 8, 9, 32, 96, 135, 136, 137, 271, 272, 273, 544, 816, 2736, 5000, 13056];

/// The two examples that FIPS 202's publisher gives for SHAKE256, by their first bytes.
const EMPTY: &str = "46b9dd2b0ba88d13233b3feb743eeb243fcd52ea62b81b82b50c27646ed5762f";
const A3: &str = "cd8a920ed141aa0407a22d59288652e9d9f1a7ee0c1e7c1ca699424da84a904d";

pub fn compare(calls: &mut Calls) {
    calls.part("SHAKE256");
    for (input, expected) in [(vec![], EMPTY), (vec![0xa3; 200], A3)] {
        let found = hex(&calls.shake256(&input, 32));
        if found != expected {
            let lines = [format!("archive: {found}"), format!("published: {expected}")];
            calls.report.differs("ncc_shake256", &[crate::report::Shown::Bytes("in", &input)], &lines);
        }
    }
    for input in LENGTHS {
        for output in LENGTHS {
            let bytes = calls.numbers.bytes(input);
            calls.shake256(&bytes, output);
        }
    }
    for length in 0..=280 {
        let bytes = calls.numbers.bytes(length);
        let other = calls.numbers.below(300);
        calls.shake256(&bytes, other);
        let bytes = calls.numbers.bytes(other);
        calls.shake256(&bytes, length);
    }
    for length in [32767, 32768, 32769, 65536, 100_000] {
        let bytes = calls.numbers.bytes(length);
        calls.shake256(&bytes, 64);
        calls.shake256(&bytes[..34], length);
    }
    calls.report.part_done();
}
