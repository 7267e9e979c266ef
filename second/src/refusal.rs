//! Why a call was turned away, with the numbers of 01.

/// Which buffer has the wrong length.
#[derive(Clone, Copy, PartialEq, Eq, Debug)]
pub enum Buffer {
    PublicKey,
    SecretKey,
    Zeta,
    ZetaPrime,
    Signature,
    /// The first factor of a product.
    First,
    /// The second factor of a product.
    Second,
    /// The element buffer: what packing takes, and what unpacking, the
    /// product and the samplers fill.
    Coefficients,
    /// The byte buffer of packing and unpacking.
    Packed,
}

/// Which packed field holds a bad coefficient.
#[derive(Clone, Copy, PartialEq, Eq, Debug)]
pub enum Field {
    T1,
    T0,
    /// s1 inside a secret key.
    S1,
    /// s2 inside a secret key.
    S2,
    /// The s layout on its own, outside a key.
    S,
    Z,
    W1,
}

/// A refusal. At each of them the output buffers keep what they held.
#[derive(Clone, Copy, PartialEq, Eq, Debug)]
pub enum Refusal {
    /// 1: a buffer of one fixed length has another.
    Length(Buffer),
    /// 2: the message is too long.
    LongMessage,
    /// 3: the try limit is 0 or too high.
    TryLimit,
    /// 4 or 5: the field, and the lowest index with a bad value or code.
    Coefficient(Field, usize),
    /// 6: a hint value other than 0 or 1, or too many ones.
    Hint,
    /// 7: a stream ended before its last coefficient.
    Dry,
    /// 8: every try up to the limit failed.
    Spent,
    /// 9: the recomputed hash differs.
    Differs,
}

impl Refusal {
    /// The number 01 gives to this refusal.
    pub fn number(&self) -> u8 {
        match self {
            Refusal::Length(_) => 1,
            Refusal::LongMessage => 2,
            Refusal::TryLimit => 3,
            Refusal::Coefficient(Field::Z, _) => 5,
            Refusal::Coefficient(_, _) => 4,
            Refusal::Hint => 6,
            Refusal::Dry => 7,
            Refusal::Spent => 8,
            Refusal::Differs => 9,
        }
    }
}

/// Refuses a buffer whose length is not the one it must have.
pub(crate) fn need_length(found: usize, needed: usize, buffer: Buffer) -> Result<(), Refusal> {
    if found == needed {
        Ok(())
    } else {
        Err(Refusal::Length(buffer))
    }
}
