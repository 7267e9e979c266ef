//! Each packed layout over all its codes.

mod common;

use common::{put_code, Numbers};
use second::packing::*;
use second::refusal::{Buffer, Field, Refusal};
use second::set::N;

type Pack = fn(&[i32], &mut [u8]) -> Result<(), Refusal>;
type Unpack = fn(&[u8], &mut [i32]) -> Result<(), Refusal>;

struct Layout {
    field: Field,
    pack: Pack,
    unpack: Unpack,
    bits: usize,
    bytes: usize,
    value: fn(i32) -> i32,
    codes: std::ops::RangeInclusive<i32>,
    number: u8,
}

/// The table of 01, written out as codes.
fn layouts() -> [Layout; 5] {
    [
        Layout {
            field: Field::T1,
            pack: pack_t1,
            unpack: unpack_t1,
            bits: 12,
            bytes: 1728,
            value: |code| code,
            codes: 0..=2051,
            number: 4,
        },
        Layout {
            field: Field::T0,
            pack: pack_t0,
            unpack: unpack_t0,
            bits: 12,
            bytes: 1728,
            value: |code| 2048 - code,
            codes: 0..=4095,
            number: 4,
        },
        Layout {
            field: Field::S,
            pack: pack_s,
            unpack: unpack_s,
            bits: 2,
            bytes: 288,
            value: |code| 1 - code,
            codes: 0..=2,
            number: 4,
        },
        Layout {
            field: Field::Z,
            pack: pack_z,
            unpack: unpack_z,
            bits: 19,
            bytes: 2736,
            value: |code| 262144 - code,
            codes: 51..=524237,
            number: 5,
        },
        Layout {
            field: Field::W1,
            pack: pack_w1,
            unpack: unpack_w1,
            bits: 5,
            bytes: 720,
            value: |code| code,
            codes: 0..=31,
            number: 4,
        },
    ]
}

/// Elements that between them hold every allowed code, each at some index.
#[test]
fn round_trip_over_all_allowed_codes() {
    for layout in layouts() {
        let all: Vec<i32> = layout.codes.clone().collect();
        for start in (0..all.len()).step_by(N) {
            let codes: Vec<i32> = (0..N).map(|i| all[(start + i) % all.len()]).collect();
            let values: Vec<i32> = codes.iter().map(|&code| (layout.value)(code)).collect();
            let mut expected = vec![0; layout.bytes];
            for (index, &code) in codes.iter().enumerate() {
                put_code(&mut expected, layout.bits, index, code as u32);
            }
            let mut packed = vec![0xaa; layout.bytes];
            (layout.pack)(&values, &mut packed).unwrap();
            assert_eq!(packed, expected);
            let mut back = vec![-9; N];
            (layout.unpack)(&packed, &mut back).unwrap();
            assert_eq!(back, values);
        }
    }
}

#[test]
fn forbidden_codes_are_refused_with_the_lowest_index() {
    for layout in layouts() {
        let mut numbers = Numbers::new("codes");
        for code in 0..1 << layout.bits {
            if layout.codes.contains(&code) {
                continue;
            }
            let index = numbers.below(N);
            let mut packed = vec![0; layout.bytes];
            for i in 0..N {
                put_code(&mut packed, layout.bits, i, *layout.codes.start() as u32 + 1);
            }
            put_code(&mut packed, layout.bits, index, code as u32);
            // A second bad code further on makes no difference.
            put_code(&mut packed, layout.bits, N - 1, code as u32);
            let mut out = vec![-9; N];
            let refusal = (layout.unpack)(&packed, &mut out).unwrap_err();
            assert_eq!(refusal, Refusal::Coefficient(layout.field, index));
            assert_eq!(refusal.number(), layout.number);
            assert_eq!(out, vec![-9; N]);
        }
    }
}

#[test]
fn forbidden_values_are_refused_with_the_lowest_index() {
    for layout in layouts() {
        let ends = [(layout.value)(*layout.codes.start()), (layout.value)(*layout.codes.end())];
        let (lowest, highest) = (ends[0].min(ends[1]), ends[0].max(ends[1]));
        for bad in [i32::MIN, lowest - 1, highest + 1, i32::MAX] {
            for index in [0, 1, 600, 1150, 1151] {
                let mut values = vec![lowest; N];
                values[index] = bad;
                values[N - 1] = bad;
                let mut out = vec![0xaa; layout.bytes];
                let refusal = (layout.pack)(&values, &mut out).unwrap_err();
                assert_eq!(refusal, Refusal::Coefficient(layout.field, index));
                assert_eq!(refusal.number(), layout.number);
                assert_eq!(out, vec![0xaa; layout.bytes]);
            }
        }
        for good in [lowest, highest] {
            (layout.pack)(&[good; N], &mut vec![0; layout.bytes]).unwrap();
        }
    }
}

/// Inputs come before outputs, and lengths before contents.
#[test]
fn lengths() {
    let hint = (pack_hint as Pack, unpack_hint as Unpack, 144);
    for (pack, unpack, bytes) in
        layouts().map(|layout| (layout.pack, layout.unpack, layout.bytes)).into_iter().chain([hint])
    {
        for wrong in [0, N - 1, N + 1] {
            for length in [0, bytes - 1, bytes, bytes + 1] {
                let mut out = vec![0xaa; length];
                assert_eq!(
                    pack(&vec![i32::MAX; wrong], &mut out),
                    Err(Refusal::Length(Buffer::Coefficients))
                );
                assert_eq!(out, vec![0xaa; length]);
            }
        }
        for wrong in [0, bytes - 1, bytes + 1] {
            let mut out = vec![0xaa; wrong];
            assert_eq!(pack(&[i32::MAX; N], &mut out), Err(Refusal::Length(Buffer::Packed)));
            assert_eq!(out, vec![0xaa; wrong]);
            for length in [0, N - 1, N, N + 1] {
                let mut out = vec![-9; length];
                assert_eq!(unpack(&vec![0xff; wrong], &mut out), Err(Refusal::Length(Buffer::Packed)));
                assert_eq!(out, vec![-9; length]);
            }
        }
        for wrong in [0, N - 1, N + 1] {
            let mut out = vec![-9; wrong];
            assert_eq!(unpack(&vec![0xff; bytes], &mut out), Err(Refusal::Length(Buffer::Coefficients)));
            assert_eq!(out, vec![-9; wrong]);
        }
    }
}

#[test]
fn hint_bits() {
    let mut numbers = Numbers::new("hint bits");
    for count in [0, 1, 79, 80, 81, 256, 257, 336, 1152] {
        let mut values = vec![0; N];
        let mut left = count;
        while left > 0 {
            let place = numbers.below(N);
            left -= 1 - values[place] as usize;
            values[place] = 1;
        }
        let mut expected = vec![0; 144];
        for (index, &value) in values.iter().enumerate() {
            put_code(&mut expected, 1, index, value as u32);
        }
        let mut packed = vec![0xaa; 144];
        let mut back = vec![-9; N];
        if count <= 80 {
            pack_hint(&values, &mut packed).unwrap();
            assert_eq!(packed, expected);
            unpack_hint(&packed, &mut back).unwrap();
            assert_eq!(back, values);
        } else {
            assert_eq!(pack_hint(&values, &mut packed), Err(Refusal::Hint));
            assert_eq!(packed, vec![0xaa; 144]);
            assert_eq!(unpack_hint(&expected, &mut back), Err(Refusal::Hint));
            assert_eq!(back, vec![-9; N]);
        }
    }
    for bad in [2, -1, i32::MIN, i32::MAX] {
        let mut values = [0; N];
        values[1000] = bad;
        let mut packed = vec![0xaa; 144];
        assert_eq!(pack_hint(&values, &mut packed), Err(Refusal::Hint));
        assert_eq!(packed, vec![0xaa; 144]);
    }
}
