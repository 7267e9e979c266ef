//! What several test programs share.

#![allow(dead_code)]

use second::scheme::{make_keys, sign};
use second::set::*;
use second::shake::{Absorb, Squeeze};

pub fn hex(bytes: &[u8]) -> String {
    bytes.iter().map(|byte| format!("{byte:02x}")).collect()
}

/// The first bytes of SHAKE256, as a vector.
pub fn hashed(input: &[u8], length: usize) -> Vec<u8> {
    let mut out = vec![0; length];
    Absorb::new().part(input).done().next(&mut out);
    out
}

/// Numbers that look random and are the same in each run.
pub struct Numbers(Squeeze);

impl Numbers {
    pub fn new(name: &str) -> Numbers {
        Numbers(Absorb::new().part(name.as_bytes()).done())
    }

    pub fn any(&mut self) -> i32 {
        let mut bytes = [0; 4];
        self.0.next(&mut bytes);
        i32::from_le_bytes(bytes)
    }

    pub fn below(&mut self, top: usize) -> usize {
        self.any() as u32 as usize % top
    }
}

pub struct Keys {
    pub public: Vec<u8>,
    pub secret: Vec<u8>,
}

pub fn keys(number: u8) -> Keys {
    let mut public = vec![0; PUBLIC_KEY];
    let mut secret = vec![0; SECRET_KEY];
    make_keys(
        &hashed(&[b"zeta".as_slice(), &[number]].concat(), SEED),
        &hashed(&[b"zeta'".as_slice(), &[number]].concat(), SEED),
        &mut public,
        &mut secret,
    )
    .unwrap();
    Keys { public, secret }
}

pub fn signed(keys: &Keys, message: &[u8]) -> Vec<u8> {
    let mut signature = vec![0; SIGNATURE];
    let answer = sign(&keys.secret, message, LIMIT_TOP, &mut signature);
    assert_eq!(answer.refusal, None);
    signature
}

/// Sets the code at an index of a packed field bit by bit. It shares nothing
/// with the packing under test.
pub fn put_code(packed: &mut [u8], bits: usize, index: usize, code: u32) {
    for bit in 0..bits {
        let place = index * bits + bit;
        packed[place / 8] &= !(1 << (place % 8));
        packed[place / 8] |= ((code >> bit & 1) as u8) << (place % 8);
    }
}
