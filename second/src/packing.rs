//! The packed layouts of 01. All pack lowest bit first, coefficient 0 first.

use crate::refusal::{need_length, Buffer, Field, Refusal};
use crate::ring::Element;
use crate::set::*;

/// One layout: how wide a code is, how a value and its code relate, and which
/// values are allowed.
struct Layout {
    bits: usize,
    /// None: the code is the value. Some(top): the code is top - value.
    top: Option<i32>,
    lowest: i32,
    highest: i32,
}

const T1: Layout = Layout { bits: T1_BITS, top: None, lowest: 0, highest: T1_TOP };
const T0: Layout =
    Layout { bits: T0_BITS, top: Some(T_STEP / 2), lowest: 1 - T_STEP / 2, highest: T_STEP / 2 };
const S: Layout = Layout { bits: S_BITS, top: Some(ETA), lowest: -ETA, highest: ETA };
const Z: Layout = Layout { bits: Z_BITS, top: Some(GAMMA1), lowest: -Z_TOP, highest: Z_TOP };
const W1: Layout = Layout { bits: W1_BITS, top: None, lowest: 0, highest: STEPS - 1 };
/// The mask has the codes of z, but every code is allowed.
const MASK: Layout = Layout { bits: Z_BITS, top: Some(GAMMA1), lowest: 1 - GAMMA1, highest: GAMMA1 };

impl Layout {
    const fn bytes(&self) -> usize {
        N * self.bits / 8
    }

    fn allows(&self, value: i32) -> bool {
        self.lowest <= value && value <= self.highest
    }

    /// The lengths and all values are checked before a byte is written.
    #[inline]
    fn pack(&self, field: Field, values: &[i32], out: &mut [u8]) -> Result<(), Refusal> {
        need_length(values.len(), N, Buffer::Coefficients)?;
        need_length(out.len(), self.bytes(), Buffer::Packed)?;
        if let Some(index) = values.iter().position(|&value| !self.allows(value)) {
            return Err(Refusal::Coefficient(field, index));
        }
        let codes = values.iter().map(|&value| match self.top {
            None => value as u32,
            Some(top) => (top - value) as u32,
        });
        write_codes(codes, self.bits, out);
        Ok(())
    }

    /// The element is made aside, so that a bad code leaves `out` as it was.
    #[inline]
    fn unpack(&self, field: Field, packed: &[u8], out: &mut [i32]) -> Result<(), Refusal> {
        need_length(packed.len(), self.bytes(), Buffer::Packed)?;
        need_length(out.len(), N, Buffer::Coefficients)?;
        let mut values: Element = [0; N];
        read_codes(packed, self.bits, &mut values);
        for (index, value) in values.iter_mut().enumerate() {
            if let Some(top) = self.top {
                *value = top - *value;
            }
            if !self.allows(*value) {
                return Err(Refusal::Coefficient(field, index));
            }
        }
        out.copy_from_slice(&values);
        Ok(())
    }
}

/// Writes codes of `bits` bits. Together they must fill whole bytes, and `out`.
#[inline]
fn write_codes(codes: impl Iterator<Item = u32>, bits: usize, out: &mut [u8]) {
    let (mut held, mut count) = (0u64, 0);
    let mut bytes = out.iter_mut();
    for code in codes {
        held |= u64::from(code) << count;
        count += bits;
        while count >= 8 {
            if let Some(byte) = bytes.next() {
                *byte = held as u8;
            }
            held >>= 8;
            count -= 8;
        }
    }
}

/// Reads as many codes of `bits` bits as `out` has room for.
#[inline]
fn read_codes(packed: &[u8], bits: usize, out: &mut [i32]) {
    let (mut held, mut count) = (0u64, 0);
    let mut bytes = packed.iter();
    for code in out {
        while count < bits {
            held |= u64::from(bytes.next().copied().unwrap_or(0)) << count;
            count += 8;
        }
        *code = (held & ((1 << bits) - 1)) as i32;
        held >>= bits;
        count -= bits;
    }
}

/// Packs values 0..2051 into 1,728 bytes.
pub fn pack_t1(values: &[i32], out: &mut [u8]) -> Result<(), Refusal> {
    T1.pack(Field::T1, values, out)
}

pub fn unpack_t1(packed: &[u8], out: &mut [i32]) -> Result<(), Refusal> {
    T1.unpack(Field::T1, packed, out)
}

/// Packs values -2047..2048 into 1,728 bytes.
pub fn pack_t0(values: &[i32], out: &mut [u8]) -> Result<(), Refusal> {
    T0.pack(Field::T0, values, out)
}

pub fn unpack_t0(packed: &[u8], out: &mut [i32]) -> Result<(), Refusal> {
    T0.unpack(Field::T0, packed, out)
}

/// Packs values -1..1 into 288 bytes.
pub fn pack_s(values: &[i32], out: &mut [u8]) -> Result<(), Refusal> {
    S.pack(Field::S, values, out)
}

pub fn unpack_s(packed: &[u8], out: &mut [i32]) -> Result<(), Refusal> {
    S.unpack(Field::S, packed, out)
}

/// The s layout inside a secret key, where a refusal names s1 or s2.
pub(crate) fn unpack_s_as(field: Field, packed: &[u8], out: &mut [i32]) -> Result<(), Refusal> {
    S.unpack(field, packed, out)
}

/// Packs values -262093..262093 into 2,736 bytes.
pub fn pack_z(values: &[i32], out: &mut [u8]) -> Result<(), Refusal> {
    Z.pack(Field::Z, values, out)
}

pub fn unpack_z(packed: &[u8], out: &mut [i32]) -> Result<(), Refusal> {
    Z.unpack(Field::Z, packed, out)
}

/// Packs values 0..31 into 720 bytes.
pub fn pack_w1(values: &[i32], out: &mut [u8]) -> Result<(), Refusal> {
    W1.pack(Field::W1, values, out)
}

pub fn unpack_w1(packed: &[u8], out: &mut [i32]) -> Result<(), Refusal> {
    W1.unpack(Field::W1, packed, out)
}

/// The mask from its stream. Every code is allowed, so only the lengths can
/// be refused.
pub(crate) fn unpack_mask(packed: &[u8], out: &mut [i32]) -> Result<(), Refusal> {
    MASK.unpack(Field::Z, packed, out)
}

/// Packs hint values, 0 or 1 and at most 80 ones, into 144 bytes.
pub fn pack_hint(values: &[i32], out: &mut [u8]) -> Result<(), Refusal> {
    need_length(values.len(), N, Buffer::Coefficients)?;
    need_length(out.len(), HINT_BYTES, Buffer::Packed)?;
    if values.iter().any(|&value| value != 0 && value != 1) {
        return Err(Refusal::Hint);
    }
    if ones(values) > OMEGA {
        return Err(Refusal::Hint);
    }
    write_codes(values.iter().map(|&value| value as u32), 1, out);
    Ok(())
}

pub fn unpack_hint(packed: &[u8], out: &mut [i32]) -> Result<(), Refusal> {
    need_length(packed.len(), HINT_BYTES, Buffer::Packed)?;
    need_length(out.len(), N, Buffer::Coefficients)?;
    let mut values: Element = [0; N];
    read_codes(packed, 1, &mut values);
    if ones(&values) > OMEGA {
        return Err(Refusal::Hint);
    }
    out.copy_from_slice(&values);
    Ok(())
}

/// Counted in a usize: a byte would wrap at 256.
pub(crate) fn ones(hint: &[i32]) -> usize {
    hint.iter().filter(|&&value| value == 1).count()
}
