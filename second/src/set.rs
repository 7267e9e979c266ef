//! The numbers of set 1: trinomial, level 1 (002, Table 5).
//!
//! Each number is written once, here. What can be computed from others is.

/// Coefficients of an element.
pub const N: usize = 1152;
/// The middle exponent of the trinomial X^N - X^HALF + 1.
pub const HALF: usize = N / 2;
/// The modulus.
pub const Q: i32 = 8_401_537;
/// Bits dropped from t.
pub const D: u32 = 12;
/// Nonzero coefficients of a challenge.
pub const TAU: usize = 25;
/// The mask runs from -(GAMMA1 - 1) to GAMMA1.
pub const GAMMA1: i32 = 262_144;
/// Half of a rounding step.
pub const GAMMA2: i32 = 131_274;
/// Largest magnitude of a secret coefficient.
pub const ETA: i32 = 1;
/// Largest magnitude of a challenge times a secret, as the norm tests take it.
pub const BETA: i32 = 50;
/// Most ones in a hint.
pub const OMEGA: usize = 80;

/// A rounding step.
pub const ALPHA: i32 = 2 * GAMMA2;
/// How many rounding steps there are. 01 calls it m.
pub const STEPS: i32 = (Q - 1) / ALPHA;
/// The step of Power2Round.
pub const T_STEP: i32 = 1 << D;
/// The highest t1.
pub const T1_TOP: i32 = (Q - 1) / T_STEP;
/// The highest magnitude of a z that may leave the signer.
pub const Z_TOP: i32 = GAMMA1 - BETA - 1;

/// Longest message, in bytes.
pub const MESSAGE_TOP: usize = 32_768;
/// Highest try limit.
pub const LIMIT_TOP: u32 = 1_000;

/// Bytes of a seed, and of ph, K and the challenge hash.
pub const SEED: usize = 32;
/// Bytes of the message hash mu and of the mask seed rho.
pub const LONG_HASH: usize = 64;

/// Stream bytes for a.
pub const A_STREAM: usize = 13_056;
/// Stream bytes for s1, and again for s2.
pub const S_STREAM: usize = 816;
/// Stream bytes for one mask.
pub const MASK_STREAM: usize = N * Z_BITS / 8;
/// Stream bytes for one challenge.
pub const CHALLENGE_STREAM: usize = 544;
/// The first bytes of a challenge stream hold the signs.
pub const SIGN_BYTES: usize = 8;
/// Bits kept of each two-byte draw of a challenge place.
pub const PLACE_BITS: u32 = 11;

/// Bits of one code in each layout.
pub const T1_BITS: usize = 12;
pub const T0_BITS: usize = 12;
pub const S_BITS: usize = 2;
pub const Z_BITS: usize = 19;
pub const W1_BITS: usize = 5;

/// Bytes of one packed element in each layout.
pub const T1_BYTES: usize = N * T1_BITS / 8;
pub const T0_BYTES: usize = N * T0_BITS / 8;
pub const S_BYTES: usize = N * S_BITS / 8;
pub const Z_BYTES: usize = N * Z_BITS / 8;
pub const W1_BYTES: usize = N * W1_BITS / 8;
pub const HINT_BYTES: usize = N / 8;

/// zeta, t1.
pub const PUBLIC_KEY: usize = SEED + T1_BYTES;
/// zeta, ph, K, s1, s2, t0.
pub const SECRET_KEY: usize = 3 * SEED + 2 * S_BYTES + T0_BYTES;
/// Challenge hash, z, hint.
pub const SIGNATURE: usize = SEED + Z_BYTES + HINT_BYTES;

// The papers give these as plain numbers. A slip above stops the build.
const _: () = assert!(STEPS == 32 && STEPS * ALPHA == Q - 1);
const _: () = assert!(T1_TOP == 2051 && Z_TOP == 262_093);
const _: () = assert!(BETA == 2 * ETA * TAU as i32);
const _: () = assert!(MASK_STREAM == 2736 && W1_BYTES == 720);
const _: () = assert!(PUBLIC_KEY == 1760 && SECRET_KEY == 2400 && SIGNATURE == 2912);
