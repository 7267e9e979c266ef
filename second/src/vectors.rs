//! The records of a vector file, as VECTORS.md fixes them.
//!
//! A writer makes each call on the second program and writes down what it
//! answered. A reader keeps the same buffers, so the writer keeps them too.

use crate::refusal::{Buffer, Field, Refusal};
use crate::scheme::{check, make_keys, sign};
use crate::set::*;
use crate::shake::shake256_parts;

/// Bytes by which a buffer's room is longer than its full length.
pub const SPARE: usize = 8;
/// What an output holds before a call.
pub const FILL: u8 = 165;
/// Bytes of a hash that stands for an output.
pub const DIGEST: usize = 32;
/// Numbers in the header of a record.
pub const HEADER: usize = 12;
/// The longest message of a record. The longest that is not refused is shorter.
pub const LONG_MESSAGE: usize = MESSAGE_TOP + SPARE;

pub const END: u32 = 0;
pub const MAKE_KEYS: u32 = 1;
pub const SIGN: u32 = 2;
pub const CHECK: u32 = 3;
pub const PATCH: u32 = 4;

/// How many records of kinds 1 to 4 there are.
pub type Counts = [u32; 4];

/// The header of a record.
#[derive(Clone, Copy, Default, PartialEq, Eq, Debug)]
pub struct Header {
    pub kind: u32,
    pub answer: Answer,
    /// What first to fourth mean is the kind's.
    pub four: [usize; 4],
    pub seed: u32,
    pub limit: u32,
    pub bytes: usize,
}

/// What a call answers, in numbers.
#[derive(Clone, Copy, Default, PartialEq, Eq, Debug)]
pub struct Answer {
    pub number: u32,
    pub place: u32,
    pub index: u32,
    pub tries: u32,
}

impl Answer {
    pub fn of(refusal: Option<Refusal>, tries: u32) -> Answer {
        let (place, index) = match refusal {
            Some(Refusal::Length(buffer)) => (buffer_number(buffer), 0),
            Some(Refusal::Coefficient(field, index)) => (field_number(field), index as u32),
            _ => (0, 0),
        };
        Answer { number: refusal.map_or(0, |refusal| refusal.number().into()), place, index, tries }
    }
}

pub fn buffer_number(buffer: Buffer) -> u32 {
    match buffer {
        Buffer::PublicKey => 1,
        Buffer::SecretKey => 2,
        Buffer::Zeta => 3,
        Buffer::ZetaPrime => 4,
        Buffer::Signature => 5,
        Buffer::First => 6,
        Buffer::Second => 7,
        Buffer::Coefficients => 8,
        Buffer::Packed => 9,
    }
}

pub fn field_number(field: Field) -> u32 {
    match field {
        Field::T1 => 17,
        Field::T0 => 18,
        Field::S1 => 19,
        Field::S2 => 20,
        Field::S => 21,
        Field::Z => 22,
        Field::W1 => 23,
    }
}

impl Header {
    pub fn written(&self) -> Vec<u8> {
        let Answer { number, place, index, tries } = self.answer;
        let [first, second, third, fourth] = self.four.map(|value| value as u32);
        let numbers: [u32; HEADER] = [
            self.kind,
            number,
            place,
            index,
            tries,
            first,
            second,
            third,
            fourth,
            self.seed,
            self.limit,
            self.bytes as u32,
        ];
        numbers.iter().flat_map(|number| number.to_le_bytes()).collect()
    }

    /// Takes a header from the front of a file.
    pub fn read(file: &mut &[u8]) -> Result<Header, String> {
        let bytes = take(file, 4 * HEADER)?;
        let at = |place: usize| {
            let mut number = [0; 4];
            number.copy_from_slice(&bytes[4 * place..4 * place + 4]);
            u32::from_le_bytes(number)
        };
        Ok(Header {
            kind: at(0),
            answer: Answer { number: at(1), place: at(2), index: at(3), tries: at(4) },
            four: [5, 6, 7, 8].map(|place| at(place) as usize),
            seed: at(9),
            limit: at(10),
            bytes: at(11) as usize,
        })
    }
}

/// Takes bytes from the front of a file.
pub fn take<'a>(file: &mut &'a [u8], length: usize) -> Result<&'a [u8], String> {
    if file.len() < length {
        return Err("the file ends within a record".into());
    }
    let (now, later) = file.split_at(length);
    *file = later;
    Ok(now)
}

/// The message of a seed.
pub fn message(seed: u32, length: usize) -> Vec<u8> {
    let (high, low) = (seed as usize / 256, seed as usize % 256);
    (0..length).map(|i| (((i % 256) * (2 * high + 1) + i / 256 + low) % 256) as u8).collect()
}

/// The first bytes of SHAKE256 on the parts, joined.
pub fn digest(parts: &[&[u8]]) -> [u8; DIGEST] {
    let mut out = [0; DIGEST];
    shake256_parts(parts, &mut out);
    out
}

/// How an output that is expected stands in the file.
#[derive(Clone, Copy, PartialEq, Eq)]
pub enum Shown {
    Whole,
    Hashed,
}

/// The lengths of the buffers of a call when none of them is wrong.
pub const KEY_LENGTHS: [usize; 4] = [SEED, SEED, PUBLIC_KEY, SECRET_KEY];

/// Writes records and keeps what a reader keeps.
pub struct Writer {
    file: Vec<u8>,
    pub counts: Counts,
    /// Tries of all signing records.
    pub tries: u32,
    pub public_key: Vec<u8>,
    pub secret_key: Vec<u8>,
    pub signature: Vec<u8>,
}

impl Default for Writer {
    fn default() -> Writer {
        Writer::new()
    }
}

impl Writer {
    pub fn new() -> Writer {
        Writer {
            file: Vec::new(),
            counts: [0; 4],
            tries: 0,
            public_key: vec![0; PUBLIC_KEY + SPARE],
            secret_key: vec![0; SECRET_KEY + SPARE],
            signature: vec![0; SIGNATURE + SPARE],
        }
    }

    fn record(&mut self, header: Header, bytes: &[&[u8]]) {
        self.counts[header.kind as usize - 1] += 1;
        let bytes = bytes.concat();
        self.file.extend(Header { bytes: bytes.len(), ..header }.written());
        self.file.extend(bytes);
    }

    pub fn make_keys(
        &mut self,
        zeta: &[u8; SEED],
        zeta_prime: &[u8; SEED],
        lengths: [usize; 4],
        shown: Shown,
    ) -> Answer {
        let room = |seed: &[u8; SEED]| [&seed[..], &[0; SPARE]].concat();
        let (mut public, mut secret) = (vec![FILL; lengths[2]], vec![FILL; lengths[3]]);
        let result =
            make_keys(&room(zeta)[..lengths[0]], &room(zeta_prime)[..lengths[1]], &mut public, &mut secret);
        let answer = Answer::of(result.err(), 0);
        let header = Header { kind: MAKE_KEYS, answer, four: lengths, ..Header::default() };
        if result.is_err() {
            self.record(header, &[zeta, zeta_prime]);
            return answer;
        }
        match shown {
            Shown::Whole => self.record(header, &[zeta, zeta_prime, &public, &secret]),
            Shown::Hashed => self.record(header, &[zeta, zeta_prime, &digest(&[&public, &secret])]),
        }
        self.public_key[..PUBLIC_KEY].copy_from_slice(&public);
        self.secret_key[..SECRET_KEY].copy_from_slice(&secret);
        answer
    }

    /// Signs with the kept secret key. The lengths are the key's and the
    /// output's.
    pub fn sign(&mut self, text: Text, limit: u32, lengths: [usize; 2], shown: Shown) -> Answer {
        let mut out = vec![FILL; lengths[1]];
        let result = sign(&self.secret_key[..lengths[0]], &text.bytes(), limit, &mut out);
        let answer = Answer::of(result.refusal, result.tries);
        let header = Header {
            kind: SIGN,
            answer,
            four: [lengths[0], text.length, lengths[1], 0],
            seed: text.seed,
            limit,
            bytes: 0,
        };
        self.tries += result.tries;
        if result.refusal.is_some() {
            self.record(header, &[]);
            return answer;
        }
        match shown {
            Shown::Whole => self.record(header, &[&out]),
            Shown::Hashed => self.record(header, &[&digest(&[&out])]),
        }
        self.signature[..SIGNATURE].copy_from_slice(&out);
        answer
    }

    /// Checks the kept signature under the kept public key, lent with these
    /// lengths, the key's first.
    pub fn check(&mut self, text: Text, lengths: [usize; 2]) -> Answer {
        let result = check(&self.public_key[..lengths[0]], &self.signature[..lengths[1]], &text.bytes());
        let answer = Answer::of(result.err(), 0);
        let four = [lengths[0], lengths[1], text.length, 0];
        self.record(Header { kind: CHECK, answer, four, seed: text.seed, ..Header::default() }, &[]);
        answer
    }

    /// Changes a kept buffer. The same patch again takes the change away.
    pub fn patch(&mut self, patch: &Patch) {
        let kept = match patch.buffer {
            Buffer::PublicKey => &mut self.public_key,
            Buffer::SecretKey => &mut self.secret_key,
            Buffer::Signature => &mut self.signature,
            _ => panic!("this buffer is not kept"),
        };
        assert!(patch.position + patch.bytes.len() + SPARE <= kept.len());
        for (byte, change) in kept[patch.position..].iter_mut().zip(&patch.bytes) {
            *byte ^= change;
        }
        let four = [buffer_number(patch.buffer) as usize, patch.position, patch.bytes.len(), 0];
        self.record(Header { kind: PATCH, four, ..Header::default() }, &[&patch.bytes]);
    }

    /// Ends the file.
    pub fn done(mut self) -> Vec<u8> {
        let four = self.counts.map(|count| count as usize);
        self.file.extend(Header { kind: END, four, ..Header::default() }.written());
        self.file
    }
}

/// A message, by its seed and length.
#[derive(Clone, Copy)]
pub struct Text {
    pub seed: u32,
    pub length: usize,
}

impl Text {
    pub fn bytes(&self) -> Vec<u8> {
        assert!(self.seed < 1 << 16 && self.length <= LONG_MESSAGE);
        message(self.seed, self.length)
    }
}

/// Bytes to be xored onto a kept buffer.
#[derive(Clone)]
pub struct Patch {
    pub buffer: Buffer,
    pub position: usize,
    pub bytes: Vec<u8>,
}
