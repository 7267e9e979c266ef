//! Key making, signing and checking (002, Algorithms 8 to 10).

use crate::packing::*;
use crate::refusal::{need_length, Buffer, Field, Refusal};
use crate::ring::{multiply, residues, Element, Residues};
use crate::rounding::{centred, high_bits, low_bits, make_hint, norm, power2round, use_hint};
use crate::sampling::{mask, sample_a, sample_challenge, sample_s};
use crate::set::*;
use crate::shake::shake256_parts;

/// The answer of the signer.
#[derive(Clone, Copy, PartialEq, Eq, Debug)]
pub struct Signing {
    pub refusal: Option<Refusal>,
    /// How many tries were made at success, the limit if all failed, and 0 at
    /// any other refusal.
    pub tries: u32,
}

/// H of 01: the first B bytes of SHAKE256 on the parts, joined.
fn h<const B: usize>(parts: &[&[u8]]) -> [u8; B] {
    let mut out = [0; B];
    shake256_parts(parts, &mut out);
    out
}

/// a from its seed, as residues.
fn expand_a(zeta: &[u8]) -> Result<Residues, Refusal> {
    let mut a = [0; N];
    sample_a(&h::<A_STREAM>(&[zeta, &0u16.to_le_bytes()]), &mut a)?;
    Ok(residues(&a))
}

fn expand_s(seed: &[u8]) -> Result<Element, Refusal> {
    let mut s = [0; N];
    sample_s(&h::<S_STREAM>(&[seed]), &mut s)?;
    Ok(s)
}

fn expand_mask(rho: &[u8; LONG_HASH], kappa: u32) -> Result<Element, Refusal> {
    let mut y = [0; N];
    // A kappa is below 1,000, so two bytes hold it.
    mask(&h::<MASK_STREAM>(&[rho, &(kappa as u16).to_le_bytes()]), &mut y)?;
    Ok(y)
}

fn expand_challenge(hash: &[u8]) -> Result<Residues, Refusal> {
    let mut c = [0; N];
    sample_challenge(&h::<CHALLENGE_STREAM>(&[hash]), &mut c)?;
    Ok(residues(&c))
}

/// The challenge hash of a message and its high bits.
fn challenge_hash(mu: &[u8; LONG_HASH], w1: &Element) -> Result<[u8; SEED], Refusal> {
    let mut packed = [0; W1_BYTES];
    pack_w1(w1, &mut packed)?;
    Ok(h(&[mu, &packed]))
}

fn need_message(message: &[u8]) -> Result<(), Refusal> {
    if message.len() > MESSAGE_TOP {
        Err(Refusal::LongMessage)
    } else {
        Ok(())
    }
}

/// Makes a key pair from two seeds of 32 bytes.
pub fn make_keys(
    zeta: &[u8],
    zeta_prime: &[u8],
    public_key: &mut [u8],
    secret_key: &mut [u8],
) -> Result<(), Refusal> {
    need_length(zeta.len(), SEED, Buffer::Zeta)?;
    need_length(zeta_prime.len(), SEED, Buffer::ZetaPrime)?;
    need_length(public_key.len(), PUBLIC_KEY, Buffer::PublicKey)?;
    need_length(secret_key.len(), SECRET_KEY, Buffer::SecretKey)?;

    let seeds: [u8; 3 * SEED] = h(&[zeta_prime]);
    let (xi1, rest) = seeds.split_at(SEED);
    let (xi2, k) = rest.split_at(SEED);
    let a = expand_a(zeta)?;
    let s1 = expand_s(xi1)?;
    let s2 = expand_s(xi2)?;

    // A third of s1 is zero, so it goes first.
    let product = multiply(&residues(&s1), &a);
    let (mut t1, mut t0) = ([0; N], [0; N]);
    for i in 0..N {
        let (high, low) = power2round(product[i] as i32 + s2[i]);
        t1[i] = high as i32;
        t0[i] = low;
    }

    let mut packed_t1 = [0; T1_BYTES];
    let mut packed_s1 = [0; S_BYTES];
    let mut packed_s2 = [0; S_BYTES];
    let mut packed_t0 = [0; T0_BYTES];
    pack_t1(&t1, &mut packed_t1)?;
    pack_s(&s1, &mut packed_s1)?;
    pack_s(&s2, &mut packed_s2)?;
    pack_t0(&t0, &mut packed_t0)?;
    let ph: [u8; SEED] = h(&[zeta, &packed_t1]);

    // From here on nothing is refused, so the outputs may be written.
    join(&[zeta, &packed_t1], public_key);
    join(&[zeta, &ph, k, &packed_s1, &packed_s2, &packed_t0], secret_key);
    Ok(())
}

/// Writes the parts one after another. Together they are as long as `out`.
fn join(parts: &[&[u8]], out: &mut [u8]) {
    let mut start = 0;
    for part in parts {
        out[start..start + part.len()].copy_from_slice(part);
        start += part.len();
    }
}

/// What all tries on one message share.
struct Signer {
    a: Residues,
    s1: Residues,
    s2: Residues,
    t0: Residues,
    mu: [u8; LONG_HASH],
    rho: [u8; LONG_HASH],
}

/// A try that passed.
struct Passed {
    hash: [u8; SEED],
    z: Element,
    hint: Element,
}

/// Why a try failed. The numbers are those of 01's list.
#[derive(Clone, Copy)]
enum Failed {
    DryChallenge = 1,
    LargeZ = 2,
    LargeLowBits = 3,
    LargeCT0 = 4,
    ManyHints = 5,
}

impl Signer {
    /// Reads the key and the message. The order of the tests is that of the
    /// refusal numbers.
    fn new(secret_key: &[u8], message: &[u8], limit: u32) -> Result<Signer, Refusal> {
        need_length(secret_key.len(), SECRET_KEY, Buffer::SecretKey)?;
        need_message(message)?;
        if limit == 0 || limit > LIMIT_TOP {
            return Err(Refusal::TryLimit);
        }
        let (zeta, rest) = secret_key.split_at(SEED);
        let (ph, rest) = rest.split_at(SEED);
        let (k, rest) = rest.split_at(SEED);
        let (packed_s1, rest) = rest.split_at(S_BYTES);
        let (packed_s2, packed_t0) = rest.split_at(S_BYTES);
        let (mut s1, mut s2, mut t0) = ([0; N], [0; N], [0; N]);
        unpack_s_as(Field::S1, packed_s1, &mut s1)?;
        unpack_s_as(Field::S2, packed_s2, &mut s2)?;
        unpack_t0(packed_t0, &mut t0)?;

        let a = expand_a(zeta)?;
        let mu = h(&[ph, message]);
        let rho = h(&[k, &mu]);
        Ok(Signer { a, s1: residues(&s1), s2: residues(&s2), t0: residues(&t0), mu, rho })
    }

    /// One try. The reasons to fail are looked at in the order of 01, and work
    /// that only a later one needs is not done before.
    fn attempt(&self, kappa: u32) -> Result<Result<Passed, Failed>, Refusal> {
        let y = expand_mask(&self.rho, kappa)?;
        let w = multiply(&residues(&y), &self.a);
        let w1 = w.map(|r| high_bits(r as i32) as i32);
        let hash = challenge_hash(&self.mu, &w1)?;
        let Ok(c) = expand_challenge(&hash) else {
            return Ok(Err(Failed::DryChallenge));
        };

        // The whole z is small, so its residue by q can be centred back.
        let c_s1 = multiply(&c, &self.s1);
        let mut z = [0; N];
        for i in 0..N {
            z[i] = centred(i64::from(y[i]) + i64::from(c_s1[i]), i64::from(Q)) as i32;
        }
        if norm(&z) >= GAMMA1 - BETA {
            return Ok(Err(Failed::LargeZ));
        }

        let c_s2 = multiply(&c, &self.s2);
        let mut kept = [0; N];
        for i in 0..N {
            kept[i] = w[i] as i32 - c_s2[i] as i32;
        }
        if norm(&kept.map(low_bits)) >= GAMMA2 - BETA {
            return Ok(Err(Failed::LargeLowBits));
        }

        let c_t0 = multiply(&c, &self.t0).map(|r| r as i32);
        if norm(&c_t0) >= GAMMA2 {
            return Ok(Err(Failed::LargeCT0));
        }

        let mut hint = [0; N];
        for i in 0..N {
            hint[i] = make_hint(-c_t0[i], kept[i] + c_t0[i]) as i32;
        }
        if ones(&hint) > OMEGA {
            return Ok(Err(Failed::ManyHints));
        }
        Ok(Ok(Passed { hash, z, hint }))
    }
}

/// Signs with the first try that passes, out of at most `limit`.
pub fn sign(secret_key: &[u8], message: &[u8], limit: u32, signature: &mut [u8]) -> Signing {
    match sign_counting(secret_key, message, limit, signature) {
        Ok(tries) => Signing { refusal: None, tries },
        Err(Refusal::Spent) => Signing { refusal: Some(Refusal::Spent), tries: limit },
        Err(refusal) => Signing { refusal: Some(refusal), tries: 0 },
    }
}

fn sign_counting(
    secret_key: &[u8],
    message: &[u8],
    limit: u32,
    signature: &mut [u8],
) -> Result<u32, Refusal> {
    need_length(secret_key.len(), SECRET_KEY, Buffer::SecretKey)?;
    need_length(signature.len(), SIGNATURE, Buffer::Signature)?;
    let signer = Signer::new(secret_key, message, limit)?;
    for kappa in 0..limit {
        let Ok(passed) = signer.attempt(kappa)? else {
            continue;
        };
        let mut packed_z = [0; Z_BYTES];
        let mut packed_hint = [0; HINT_BYTES];
        pack_z(&passed.z, &mut packed_z)?;
        pack_hint(&passed.hint, &mut packed_hint)?;
        join(&[&passed.hash, &packed_z, &packed_hint], signature);
        return Ok(kappa + 1);
    }
    Err(Refusal::Spent)
}

/// What became of each try, for tests and counts: the reason number 1 to 5 of
/// each one that failed, then 0 for the one that passed, if one did. It is
/// empty if the call is refused before the first try.
pub fn tries(secret_key: &[u8], message: &[u8], limit: u32) -> Vec<u8> {
    let mut reasons = Vec::new();
    let Ok(signer) = Signer::new(secret_key, message, limit) else {
        return reasons;
    };
    for kappa in 0..limit {
        match signer.attempt(kappa) {
            Ok(Err(failed)) => reasons.push(failed as u8),
            Ok(Ok(_)) => {
                reasons.push(0);
                break;
            }
            Err(_) => break,
        }
    }
    reasons
}

/// Checks a signature on a message.
pub fn check(public_key: &[u8], signature: &[u8], message: &[u8]) -> Result<(), Refusal> {
    need_length(public_key.len(), PUBLIC_KEY, Buffer::PublicKey)?;
    need_length(signature.len(), SIGNATURE, Buffer::Signature)?;
    need_message(message)?;
    let (zeta, packed_t1) = public_key.split_at(SEED);
    let (hash, rest) = signature.split_at(SEED);
    let (packed_z, packed_hint) = rest.split_at(Z_BYTES);
    let (mut t1, mut z, mut hint) = ([0; N], [0; N], [0; N]);
    unpack_t1(packed_t1, &mut t1)?;
    unpack_z(packed_z, &mut z)?;
    unpack_hint(packed_hint, &mut hint)?;
    let a = expand_a(zeta)?;
    let c = expand_challenge(hash)?;

    let ph: [u8; SEED] = h(&[zeta, packed_t1]);
    let mu: [u8; LONG_HASH] = h(&[&ph, message]);
    let a_z = multiply(&residues(&z), &a);
    // 2051 * 4096 is below q, so these are residues already.
    let c_t1 = multiply(&c, &t1.map(|value| (value * T_STEP) as u32));
    let mut w1 = [0; N];
    for i in 0..N {
        w1[i] = use_hint(hint[i] as u32, a_z[i] as i32 - c_t1[i] as i32)? as i32;
    }
    if challenge_hash(&mu, &w1)? == hash {
        Ok(())
    } else {
        Err(Refusal::Differs)
    }
}
