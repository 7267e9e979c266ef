//! The five packed layouts: every code, every forbidden code, damaged values, wrong lengths.

use second::packing::*;
use second::set::N;

use crate::archive::*;
use crate::calls::{Calls, ToBytes, ToNumbers};

pub struct Layout {
    pub pack: ToBytes,
    pub unpack: ToNumbers,
    pub bits: usize,
    /// The lowest and the highest code that is allowed.
    codes: (i64, i64),
    /// None: the code is the value. Some(top): the code is top - value.
    top: Option<i64>,
    /// What a value or a code outside its range is refused with.
    number: u64,
}

impl Layout {
    fn bytes(&self) -> usize {
        N * self.bits / 8
    }

    fn value(&self, code: i64) -> i32 {
        self.top.map_or(code, |top| top - code) as i32
    }
}

macro_rules! layout {
    ($pack:ident, $unpack:ident, $ours_pack:ident, $ours_unpack:ident, $bits:expr, $codes:expr, $top:expr, $number:expr) => {
        Layout {
            pack: ToBytes { name: stringify!($ours_pack), ours: $ours_pack, theirs: $pack },
            unpack: ToNumbers { name: stringify!($ours_unpack), input: "packed", ours: $ours_unpack, theirs: $unpack },
            bits: $bits,
            codes: $codes,
            top: $top,
            number: $number,
        }
    };
}

/// The table of document 01.
pub fn layouts() -> [Layout; 5] {
    [
        layout!(pack_t1, unpack_t1, ncc_pack_t1, ncc_unpack_t1, 12, (0, 2051), None, 4),
        layout!(pack_t0, unpack_t0, ncc_pack_t0, ncc_unpack_t0, 12, (0, 4095), Some(2048), 4),
        layout!(pack_s, unpack_s, ncc_pack_s, ncc_unpack_s, 2, (0, 2), Some(1), 4),
        layout!(pack_z, unpack_z, ncc_pack_z, ncc_unpack_z, 19, (51, 524_237), Some(262_144), 5),
        layout!(pack_w1, unpack_w1, ncc_pack_w1, ncc_unpack_w1, 5, (0, 31), None, 4),
    ]
}

/// Sets the code at an index of a packed field bit by bit. It shares nothing with the packing under test.
pub fn put_code(packed: &mut [u8], bits: usize, index: usize, code: u32) {
    for bit in 0..bits {
        let place = index * bits + bit;
        packed[place / 8] &= !(1 << (place % 8));
        packed[place / 8] |= ((code >> bit & 1) as u8) << (place % 8);
    }
}

pub fn compare(calls: &mut Calls) {
    calls.part("packed layouts");
    for layout in layouts() {
        calls.report.progress(layout.pack.name);
        every_code(calls, &layout);
        random(calls, &layout);
        damaged(calls, &layout);
        lengths(calls, &layout);
    }
    calls.report.part_done();
}

/// Elements that between them hold every code of the width, allowed or not, in order and in an order that is mixed.
fn every_code(calls: &mut Calls, layout: &Layout) {
    let (low, high) = layout.codes;
    let allowed = high - low + 1;
    for mixed in [false, true] {
        for start in (0..allowed).step_by(N) {
            let values: Vec<i32> = (0..N as i64)
                .map(|index| (start + index) % allowed)
                // 5,003 is a prime that divides no count of codes here, so the mixed order meets every one too.
                .map(|code| layout.value(low + if mixed { code * 5003 % allowed } else { code }))
                .collect();
            let (answer, packed) = calls.into_bytes(&layout.pack, &values, layout.bytes());
            calls.must("allowed values", answer, 0);
            let (answer, back) = calls.into_numbers(&layout.unpack, &packed, N);
            calls.must("allowed codes", answer, 0);
            if back != values {
                let line = "unpacking does not undo packing".to_string();
                calls.report.differs(layout.unpack.name, &[crate::report::Shown::Bytes("packed", &packed)], &[line]);
            }
        }
    }
    for code in (0..low).chain(high + 1..1 << layout.bits) {
        let mut packed = vec![0; layout.bytes()];
        for index in 0..N {
            put_code(&mut packed, layout.bits, index, low as u32 + 1);
        }
        let index = calls.numbers.below(N);
        put_code(&mut packed, layout.bits, index, code as u32);
        if calls.numbers.once_in(2) {
            // A second bad code further on is not the one that is named.
            let later = index + calls.numbers.below(N - index);
            put_code(&mut packed, layout.bits, later, code as u32);
        }
        let (answer, _) = calls.into_numbers(&layout.unpack, &packed, N);
        calls.must("a forbidden code", answer, layout.number);
    }
}

fn random(calls: &mut Calls, layout: &Layout) {
    for _ in 0..200 {
        let values: Vec<i32> = (0..N)
            .map(|_| {
                layout
                    .value(layout.codes.0 + calls.numbers.below((layout.codes.1 - layout.codes.0 + 1) as usize) as i64)
            })
            .collect();
        let (_, packed) = calls.into_bytes(&layout.pack, &values, layout.bytes());
        calls.into_numbers(&layout.unpack, &packed, N);
        let any = calls.numbers.bytes(layout.bytes());
        calls.into_numbers(&layout.unpack, &any, N);
        // One byte of good ones damaged.
        let mut packed = packed;
        let place = calls.numbers.below(packed.len());
        packed[place] = calls.numbers.next() as u8;
        calls.into_numbers(&layout.unpack, &packed, N);
    }
    for fill in [0x00, 0x55, 0xaa, 0xff] {
        calls.into_numbers(&layout.unpack, &vec![fill; layout.bytes()], N);
    }
}

/// Values outside their range at one or more places.
fn damaged(calls: &mut Calls, layout: &Layout) {
    let ends = [layout.value(layout.codes.0), layout.value(layout.codes.1)];
    let (lowest, highest) = (ends[0].min(ends[1]), ends[0].max(ends[1]));
    let wrap = 1i32 << layout.bits;
    let bad = [lowest - 1, highest + 1, i32::MIN, i32::MAX, lowest - wrap, highest + wrap, -(1 << 30), 1 << 30];
    for index in [0, 1, 2, 575, 576, N - 2, N - 1] {
        for value in bad {
            let mut values = vec![lowest; N];
            values[index] = value;
            let (answer, _) = calls.into_bytes(&layout.pack, &values, layout.bytes());
            calls.must("a forbidden value", answer, layout.number);
        }
        for value in [lowest, highest] {
            let mut values = vec![if value == lowest { highest } else { lowest }; N];
            values[index] = value;
            let (answer, _) = calls.into_bytes(&layout.pack, &values, layout.bytes());
            calls.must("the ends of the range", answer, 0);
        }
    }
    for _ in 0..300 {
        let mut values: Vec<i32> = (0..N).map(|_| calls.numbers.between(lowest, highest)).collect();
        for _ in 0..=calls.numbers.below(4) {
            let index = calls.numbers.below(N);
            values[index] = if calls.numbers.once_in(2) { calls.numbers.pick(&bad) } else { calls.numbers.any() };
        }
        calls.into_bytes(&layout.pack, &values, layout.bytes());
    }
}

/// Each length wrong, and both at once, over bad and good content: a length comes before what it holds.
fn lengths(calls: &mut Calls, layout: &Layout) {
    let bytes = layout.bytes();
    for values in [0, 1, N - 1, N, N + 1, 2 * N] {
        for packed in [0, 1, bytes - 1, bytes, bytes + 1, 2 * bytes] {
            if (values, packed) == (N, bytes) {
                continue;
            }
            for bad in [false, true] {
                let numbers = vec![if bad { i32::MAX } else { 0 }; values];
                let (answer, _) = calls.into_bytes(&layout.pack, &numbers, packed);
                calls.must("a wrong length", answer, 1);
                let (answer, _) =
                    calls.into_numbers(&layout.unpack, &vec![if bad { 0xff } else { 0x55 }; packed], values);
                calls.must("a wrong length", answer, 1);
            }
        }
    }
}
