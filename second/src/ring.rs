//! The ring Z_q[X] / (X^1152 - X^576 + 1), by schoolbook multiplication.

use crate::refusal::{need_length, Buffer, Refusal};
use crate::set::{HALF, N, Q};

/// Coefficients as signed numbers, read mod q.
pub type Element = [i32; N];

/// Coefficients in 0..q-1.
pub type Residues = [u32; N];

/// Coefficients of a product before it is folded.
const WIDE: usize = 2 * N - 1;

/// One nonzero coefficient of the first factor, and its exponent.
type Row = (usize, u32);

/// How many rows are added in one pass over the columns. Measured: 1 is slower
/// by half, and more than 8 gains nothing.
const GROUP: usize = 8;

// A column of the product adds at most N products of two residues, and fold
// adds or takes away at most three columns. All of it stays below 2^63.
const MOST: u64 = N as u64 * (Q as u64 - 1) * (Q as u64 - 1);
const _: () = assert!(MOST < 1 << 57);

/// A multiple of q at or above two full columns. It keeps fold above 0.
const LIFT: u64 = (2 * MOST).div_ceil(Q as u64) * Q as u64;

/// The residue of one number.
#[inline]
pub fn residue(value: i32) -> u32 {
    value.rem_euclid(Q) as u32
}

/// The residues of an element.
pub fn residues(element: &Element) -> Residues {
    element.map(residue)
}

/// The product of two elements of any i32 numbers, with answers in 0..q-1.
pub fn product(a: &[i32], b: &[i32], out: &mut [i32]) -> Result<(), Refusal> {
    need_length(a.len(), N, Buffer::First)?;
    need_length(b.len(), N, Buffer::Second)?;
    need_length(out.len(), N, Buffer::Coefficients)?;
    let (mut first, mut second) = ([0; N], [0; N]);
    for i in 0..N {
        first[i] = residue(a[i]);
        second[i] = residue(b[i]);
    }
    for (place, value) in out.iter_mut().zip(multiply(&first, &second)) {
        *place = value as i32;
    }
    Ok(())
}

/// The product of two elements of residues.
///
/// Zero coefficients of the first factor cost nothing, so a sparse factor
/// belongs there. No product is reduced before all are added.
pub fn multiply(first: &Residues, second: &Residues) -> Residues {
    let second = second.map(u64::from);
    let mut rows: [Row; N] = [(0, 0); N];
    let mut count = 0;
    for (exponent, &factor) in first.iter().enumerate() {
        if factor != 0 {
            rows[count] = (exponent, factor);
            count += 1;
        }
    }
    let mut wide = [0u64; WIDE];
    let mut groups = rows[..count].chunks_exact(GROUP);
    for group in &mut groups {
        let mut together: [Row; GROUP] = [(0, 0); GROUP];
        together.copy_from_slice(group);
        add_rows(&mut wide, &second, together);
    }
    for &(exponent, factor) in groups.remainder() {
        add_row(&mut wide[exponent..exponent + N], &second, factor);
    }
    fold(&wide)
}

/// The product of two numbers whose upper halves are zero. Saying so by the
/// casts lets the compiler use one 32 by 32 bit multiplication per lane.
#[inline(always)]
fn times(factor: u32, value: u64) -> u64 {
    u64::from(factor) * u64::from(value as u32)
}

/// Adds factor * values to columns of the same length.
#[inline]
fn add_row(columns: &mut [u64], values: &[u64], factor: u32) {
    for (column, &value) in columns.iter_mut().zip(values) {
        *column += times(factor, value);
    }
}

/// Adds a group of rows, lowest exponent first. Where all of them overlap, a
/// column is loaded and stored once for the group. What sticks out at either
/// end is added row by row.
#[inline]
fn add_rows(wide: &mut [u64; WIDE], second: &[u64; N], rows: [Row; GROUP]) {
    let (lowest, highest) = (rows[0].0, rows[GROUP - 1].0);
    for (exponent, factor) in rows {
        let below = highest - exponent;
        add_row(&mut wide[exponent..highest], &second[..below], factor);
        let above = exponent - lowest;
        add_row(&mut wide[lowest + N..exponent + N], &second[N - above..], factor);
    }
    let columns = &mut wide[highest..lowest + N];
    let length = columns.len();
    let parts = rows.map(|(exponent, _)| &second[highest - exponent..][..length]);
    let factors = rows.map(|(_, factor)| factor);
    for k in 0..length {
        let mut column = columns[k];
        for row in 0..GROUP {
            column += times(factors[row], parts[row][k]);
        }
        columns[k] = column;
    }
}

/// Brings exponents up to 2302 below 1152, then reduces. Exponent k stays if it
/// is below 1152. From 1152 to 1727 it is X^(k-576) - X^(k-1152). From 1728
/// on it is -X^(k-1728).
fn fold(wide: &[u64; WIDE]) -> Residues {
    let mut out = [0; N];
    for place in 0..HALF {
        // Nothing reaches exponent 2303, which the last place here would take.
        let negated = wide.get(place + N + HALF).copied().unwrap_or(0);
        out[place] = ((wide[place] + LIFT - wide[place + N] - negated) % Q as u64) as u32;
    }
    for place in HALF..N {
        out[place] = ((wide[place] + wide[place + HALF]) % Q as u64) as u32;
    }
    out
}
