//! Which cases a vector file has.
//!
//! The work of a reader is kept modest, since it may run emulated: some 50
//! keys, some 400 tries, and some 250 checks that go as far as the hash.

use crate::refusal::Buffer;
use crate::scheme::tries;
use crate::set::*;
use crate::shake::{Absorb, Squeeze};
use crate::vectors::*;

const KEYS: u32 = 44;

/// The keys that damaged inputs are made of: two for each kind of damage.
const DAMAGED: u32 = 2 * KINDS;

const KINDS: u32 = 11;

/// Lengths of messages. The hash takes 136 bytes at a time, and 32 bytes of the
/// key stand before the message, so 104 fills the first block.
const LENGTHS: [usize; 56] = [
    0, 1, 2, 3, 7, 8, 9, 15, 16, 31, 32, 33, 63, 64, 65, 71, 72, 73, 102, 103, 104, 105, 106, 135, 136, 137,
    200, 239, 240, 241, 255, 256, 257, 376, 512, 513, 1000, 1024, 2047, 3000, 4095, 4096, 5000, 8191, 8192,
    10000, 12345, 16384, 20000, 25000, 30000, 32639, 32640, 32766, 32767, 32768,
];

/// Where the fields begin.
const T1_AT: usize = SEED;
const S1_AT: usize = 3 * SEED;
const S2_AT: usize = S1_AT + S_BYTES;
const T0_AT: usize = S2_AT + S_BYTES;
const Z_AT: usize = SEED;
const HINT_AT: usize = Z_AT + Z_BYTES;

const WHOLE_SIGN: [usize; 2] = [SECRET_KEY, SIGNATURE];
const WHOLE_CHECK: [usize; 2] = [PUBLIC_KEY, SIGNATURE];

/// Numbers that look random and are the same each time.
struct Numbers(Squeeze);

impl Numbers {
    fn below(&mut self, top: usize) -> usize {
        let mut bytes = [0; 4];
        self.0.next(&mut bytes);
        u32::from_le_bytes(bytes) as usize % top
    }
}

struct Cases {
    writer: Writer,
    numbers: Numbers,
    /// Calls on damaged or refused input.
    damaged: u32,
    signatures: u32,
    whole: u32,
    spent: u32,
    most_tries: u32,
}

/// What a file has, for whoever made it.
pub struct Summary {
    pub counts: Counts,
    pub signatures: u32,
    pub whole: u32,
    pub spent: u32,
    pub damaged: u32,
    pub tries: u32,
    pub most_tries: u32,
}

/// The vector file, and what it has.
pub fn file() -> (Vec<u8>, Summary) {
    let mut cases = Cases {
        writer: Writer::new(),
        numbers: Numbers(Absorb::new().part(b"vectors").done()),
        damaged: 0,
        signatures: 0,
        whole: 0,
        spent: 0,
        most_tries: 0,
    };
    for key in 0..KEYS {
        cases.key(key);
        cases.signatures_of(key);
        if key < DAMAGED {
            cases.damage(key);
        }
    }
    let Cases { writer, damaged, signatures, whole, spent, most_tries, .. } = cases;
    let summary =
        Summary { counts: writer.counts, signatures, whole, spent, damaged, tries: writer.tries, most_tries };
    (writer.done(), summary)
}

/// The seeds of a key pair. Three pairs are at the ends.
fn seeds(key: u32) -> [[u8; SEED]; 2] {
    match key {
        0 => [[0; SEED], [0; SEED]],
        1 => [[0xff; SEED], [0xff; SEED]],
        2 => [[0; SEED], [0xff; SEED]],
        _ => {
            let of = |name: &[u8]| digest(&[name, &key.to_le_bytes()]);
            [of(b"zeta"), of(b"zeta'")]
        }
    }
}

/// The patch that makes one code of a packed field another.
fn code(buffer: Buffer, kept: &[u8], start: usize, bits: usize, index: usize, code: u32) -> Patch {
    let first = index * bits / 8;
    let last = (index * bits + bits - 1) / 8;
    let mut bytes = vec![0; last - first + 1];
    for bit in 0..bits {
        let place = index * bits + bit;
        let (byte, shift) = (start + place / 8, place % 8);
        let change = u32::from(kept[byte] >> shift & 1) ^ (code >> bit & 1);
        bytes[place / 8 - first] |= (change as u8) << shift;
    }
    Patch { buffer, position: start + first, bytes }
}

impl Cases {
    fn key(&mut self, key: u32) {
        let [zeta, zeta_prime] = seeds(key);
        let shown = if key % 2 == 0 { Shown::Whole } else { Shown::Hashed };
        assert_eq!(self.writer.make_keys(&zeta, &zeta_prime, KEY_LENGTHS, shown).number, 0);
        // The kept signature is the last key's, if there is one.
        if key % 4 == 1 {
            self.refused_check(Text { seed: 0, length: 0 }, WHOLE_CHECK, 9);
        }
    }

    fn signs(&mut self, text: Text, limit: u32, shown: Shown) -> Answer {
        let answer = self.writer.sign(text, limit, WHOLE_SIGN, shown);
        match answer.number {
            0 => {
                self.signatures += 1;
                self.whole += u32::from(shown == Shown::Whole);
            }
            8 => self.spent += 1,
            _ => {}
        }
        self.most_tries = self.most_tries.max(answer.tries);
        answer
    }

    fn accepted(&mut self, text: Text) {
        assert_eq!(self.writer.check(text, WHOLE_CHECK), Answer::default());
    }

    /// A signature that must come, and is checked.
    fn signed(&mut self, text: Text, limit: u32, shown: Shown) -> u32 {
        let answer = self.signs(text, limit, shown);
        assert_eq!(answer.number, 0);
        self.accepted(text);
        answer.tries
    }

    fn spends(&mut self, text: Text, limit: u32) {
        let answer = self.signs(text, limit, Shown::Hashed);
        assert_eq!((answer.number, answer.tries), (8, limit));
    }

    fn refused_check(&mut self, text: Text, lengths: [usize; 2], number: u32) -> Answer {
        self.damaged += 1;
        let answer = self.writer.check(text, lengths);
        assert_eq!(answer.number, number);
        answer
    }

    fn refused_sign(&mut self, text: Text, limit: u32, lengths: [usize; 2], number: u32) -> Answer {
        self.damaged += 1;
        let answer = self.writer.sign(text, limit, lengths, Shown::Hashed);
        assert_eq!(answer.number, number);
        answer
    }

    fn text_of(&self, key: u32, turn: u32) -> Text {
        // 39 and 56 share no factor, so every length comes before one comes again.
        let length = LENGTHS[(39 * (3 * key + turn) as usize) % LENGTHS.len()];
        Text { seed: (1000 * turn + 257 * key + 1) % 32768, length }
    }

    /// The last of them is left as the kept one.
    fn signatures_of(&mut self, key: u32) {
        for turn in 0..3 {
            let text = self.text_of(key, turn);
            let shown = if turn == 0 || key % 8 == 0 { Shown::Whole } else { Shown::Hashed };
            // The signer looks at no try after the first that passes, so a limit that is just enough will do.
            let needed = self.signed(text, LIMIT_TOP, shown);
            if turn == 1 && key % 4 == 0 {
                self.signed(text, needed, Shown::Hashed);
                if needed > 1 {
                    self.spends(text, needed - 1);
                }
            }
        }
        if key % KINDS == 5 {
            self.many_tries(key);
        }
    }

    /// The first of some seeds whose message takes many tries: it runs out, and then does not.
    fn many_tries(&mut self, key: u32) {
        let needed = |seed: u32| {
            let text = Text { seed, length: 40 };
            tries(&self.writer.secret_key[..SECRET_KEY], &text.bytes(), LIMIT_TOP).len() as u32
        };
        let wanted = 8 + key / KINDS;
        let seed = (0..32768).find(|&seed| needed(seed) >= wanted).expect("a message of many tries");
        let (text, needed) = (Text { seed, length: 40 }, needed(seed));
        self.spends(text, 1);
        self.spends(text, needed - 1);
        self.signed(text, LIMIT_TOP, Shown::Whole);
    }

    fn damage(&mut self, key: u32) {
        // What is kept at the end is a signature of this message.
        let text = Text { seed: 2 * key, length: (17 * key % 120) as usize };
        match key % KINDS {
            0 => self.key_lengths(key),
            1 => self.sign_lengths(text),
            2 => self.secret_codes(text),
            3 => self.made_up_secrets(text),
            _ => {
                self.signed(text, LIMIT_TOP, Shown::Hashed);
                match key % KINDS {
                    4 => self.check_lengths(text),
                    5 => self.t1_codes(text),
                    6 => self.z_codes(text),
                    7 => self.hints(text),
                    8 => self.orders(text),
                    9 => self.flips(text),
                    _ => self.other_messages(text),
                }
                self.accepted(text);
            }
        }
    }

    /// Wrong lengths in key making: each buffer alone, and two at once, where the earlier is named.
    fn key_lengths(&mut self, key: u32) {
        let [zeta, zeta_prime] = seeds(key);
        let wrong = |slot: usize, choice: usize| {
            let full = KEY_LENGTHS[slot];
            [full - 1, full + 1, 0, full + SPARE, 1][choice]
        };
        for slot in 0..4 {
            let mut lengths = KEY_LENGTHS;
            lengths[slot] = wrong(slot, (key / KINDS) as usize);
            self.refused_keys(&zeta, &zeta_prime, lengths, slot);
            for other in slot + 1..4 {
                lengths[other] = wrong(other, slot + (key / KINDS) as usize);
                self.refused_keys(&zeta, &zeta_prime, lengths, slot);
                lengths[other] = KEY_LENGTHS[other];
            }
        }
    }

    fn refused_keys(&mut self, zeta: &[u8; SEED], zeta_prime: &[u8; SEED], lengths: [usize; 4], slot: usize) {
        self.damaged += 1;
        let answer = self.writer.make_keys(zeta, zeta_prime, lengths, Shown::Hashed);
        assert_eq!(answer, Answer { number: 1, place: [3, 4, 1, 2][slot], index: 0, tries: 0 });
    }

    /// Wrong lengths, messages and limits in signing, alone and together.
    fn sign_lengths(&mut self, text: Text) {
        let long = Text { length: MESSAGE_TOP + 1, ..text };
        for (secret, place) in [(SECRET_KEY, 5), (SECRET_KEY - 1, 2), (0, 2), (SECRET_KEY + 1, 2)] {
            for signature in [SIGNATURE - 1, SIGNATURE + 1, 0] {
                let answer = self.refused_sign(text, 1, [secret, signature], 1);
                assert_eq!(answer.place, place);
            }
        }
        assert_eq!(self.refused_sign(text, 1, [SECRET_KEY + SPARE, SIGNATURE], 1).place, 2);
        self.refused_sign(long, 0, [SECRET_KEY, SIGNATURE - 1], 1);
        self.refused_sign(long, 1000, WHOLE_SIGN, 2);
        self.refused_sign(Text { length: LONG_MESSAGE, ..text }, 1001, WHOLE_SIGN, 2);
        for limit in [0, 1001, 0x10001, u32::MAX] {
            self.refused_sign(text, limit, WHOLE_SIGN, 3);
        }
    }

    /// Code 3 in the secrets of a secret key. s1 is read before s2, and the lowest index is named.
    fn secret_codes(&mut self, text: Text) {
        let ends = [0, 1, 3, 4, 575, 576, 1150, 1151];
        for turn in 0..12 {
            let index = ends.get(turn).copied().unwrap_or_else(|| self.numbers.below(N));
            for (place, start) in [(19, S1_AT), (20, S2_AT)] {
                let patch = self.secret_code(start, index);
                self.patched(&[patch], |cases| {
                    let answer = cases.refused_sign(text, 1000, WHOLE_SIGN, 4);
                    assert_eq!((answer.place, answer.index), (place, index as u32));
                });
            }
        }
        let (low, high) = (self.numbers.below(600), 600 + self.numbers.below(500));
        let s2_low = self.secret_code(S2_AT, low);
        let s1_high = self.secret_code(S1_AT, high);
        let s1_low = self.secret_code(S1_AT, low);
        self.patched(&[s2_low, s1_high.clone()], |cases| {
            assert_eq!(cases.refused_sign(text, 1, WHOLE_SIGN, 4).index, high as u32);
            cases.refused_sign(text, 0, WHOLE_SIGN, 3);
            cases.refused_sign(Text { length: MESSAGE_TOP + 1, ..text }, 1, WHOLE_SIGN, 2);
            cases.refused_sign(text, 1, [SECRET_KEY, SIGNATURE - 1], 1);
        });
        self.patched(&[s1_high, s1_low], |cases| {
            assert_eq!(cases.refused_sign(text, 1, WHOLE_SIGN, 4).index, low as u32);
        });
    }

    fn secret_code(&self, start: usize, index: usize) -> Patch {
        code(Buffer::SecretKey, &self.writer.secret_key, start, S_BITS, index, 3)
    }

    /// Makes patches, does something, and takes them away.
    fn patched(&mut self, patches: &[Patch], then: impl FnOnce(&mut Cases)) {
        for patch in patches {
            self.writer.patch(patch);
        }
        then(self);
        for patch in patches {
            self.writer.patch(patch);
        }
    }

    /// Secret keys that key making does not give. They sign; what they sign is not accepted.
    fn made_up_secrets(&mut self, text: Text) {
        let flip = |position: usize| Patch { buffer: Buffer::SecretKey, position, bytes: vec![1] };
        // In ζ, ph and K; in t0 a change by one may be too small to show.
        for (position, number) in [(7, 9), (40, 9), (90, 0)] {
            self.patched(&[flip(position)], |cases| {
                cases.damaged += 1;
                assert_eq!(cases.signs(text, LIMIT_TOP, Shown::Hashed).number, 0);
                if number == 0 {
                    cases.accepted(text);
                } else {
                    cases.refused_check(text, WHOLE_CHECK, number);
                }
            });
        }
        // The largest t0 everywhere gives many hints, so that tries fail for their count too.
        let t0 = self.writer.secret_key[T0_AT..SECRET_KEY].to_vec();
        let largest = Patch { buffer: Buffer::SecretKey, position: T0_AT, bytes: t0 };
        self.patched(&[largest], |cases| {
            cases.damaged += 2;
            let mut reasons = Vec::new();
            let mut seed = text.seed;
            while !reasons.contains(&5) {
                seed += 1;
                reasons = tries(&cases.writer.secret_key[..SECRET_KEY], &Text { seed, ..text }.bytes(), 6);
            }
            cases.signs(Text { seed, ..text }, 6, Shown::Hashed);
            cases.signs(text, 12, Shown::Hashed);
        });
    }

    /// Wrong lengths and messages in checking, alone and together.
    fn check_lengths(&mut self, text: Text) {
        let long = Text { length: MESSAGE_TOP + 1, ..text };
        for (public, place) in [(PUBLIC_KEY, 5), (PUBLIC_KEY - 1, 1), (0, 1), (PUBLIC_KEY + 1, 1)] {
            for signature in [SIGNATURE - 1, SIGNATURE + 1, 0] {
                assert_eq!(self.refused_check(text, [public, signature], 1).place, place);
            }
        }
        assert_eq!(self.refused_check(text, [PUBLIC_KEY + SPARE, SIGNATURE], 1).place, 1);
        self.refused_check(long, [PUBLIC_KEY, SIGNATURE + SPARE], 1);
        self.refused_check(long, WHOLE_CHECK, 2);
        self.refused_check(Text { length: LONG_MESSAGE, ..text }, WHOLE_CHECK, 2);
    }

    fn t1_code(&self, index: usize, value: u32) -> Patch {
        code(Buffer::PublicKey, &self.writer.public_key, T1_AT, T1_BITS, index, value)
    }

    fn z_code(&self, index: usize, value: u32) -> Patch {
        code(Buffer::Signature, &self.writer.signature, Z_AT, Z_BITS, index, value)
    }

    /// Codes at the end of t1's range and beyond, and two at once.
    fn t1_codes(&mut self, text: Text) {
        let ends = [0, 1, 2, 575, 576, 1150, 1151];
        for turn in 0..9 {
            let index = ends.get(turn).copied().unwrap_or_else(|| self.numbers.below(N));
            for (value, number) in [(2052, 4), ([2053, 3000, 4095][turn % 3], 4), (2051, 9)] {
                let patch = self.t1_code(index, value);
                if value == 2051 && turn % 4 != 0 || patch.bytes.iter().all(|&byte| byte == 0) {
                    continue;
                }
                self.patched(&[patch], |cases| {
                    let answer = cases.refused_check(text, WHOLE_CHECK, number);
                    if number == 4 {
                        assert_eq!((answer.place, answer.index), (17, index as u32));
                    }
                });
            }
        }
        let (low, high) = (self.numbers.below(600), 600 + self.numbers.below(500));
        let patches = [self.t1_code(high, 4095), self.t1_code(low, 2052)];
        self.patched(&patches, |cases| {
            assert_eq!(cases.refused_check(text, WHOLE_CHECK, 4).index, low as u32);
        });
    }

    /// Codes at both ends of z's range and beyond, and two at once.
    fn z_codes(&mut self, text: Text) {
        let ends = [0, 1, 2, 575, 576, 1150, 1151];
        for turn in 0..9 {
            let index = ends.get(turn).copied().unwrap_or_else(|| self.numbers.below(N));
            let further = [0, 524_287, 1, 524_286][turn % 4];
            for (value, number) in [(50, 5), (524_238, 5), (further, 5), (51, 9), (524_237, 9)] {
                let patch = self.z_code(index, value);
                if number == 9 && turn % 4 != 0 || patch.bytes.iter().all(|&byte| byte == 0) {
                    continue;
                }
                self.patched(&[patch], |cases| {
                    let answer = cases.refused_check(text, WHOLE_CHECK, number);
                    if number == 5 {
                        assert_eq!((answer.place, answer.index), (22, index as u32));
                    }
                });
            }
        }
        let (low, high) = (self.numbers.below(600), 600 + self.numbers.below(500));
        let patches = [self.z_code(high, 0), self.z_code(low, 524_238)];
        self.patched(&patches, |cases| {
            assert_eq!(cases.refused_check(text, WHOLE_CHECK, 5).index, low as u32);
        });
    }

    /// The patch that makes the hint's ones those from `start` on.
    fn hint_ones(&self, start: usize, ones: usize) -> Patch {
        let mut bytes = self.writer.signature[HINT_AT..SIGNATURE].to_vec();
        for index in start..start + ones {
            bytes[index / 8] ^= 1 << (index % 8);
        }
        Patch { buffer: Buffer::Signature, position: HINT_AT, bytes }
    }

    /// 80 ones pass, 81 do not, and a count that is kept in a byte would wrap at 256.
    fn hints(&mut self, text: Text) {
        for (ones, number) in [(80, 9), (81, 6), (256, 6), (336, 6), (1152, 6)] {
            for start in [0, (N - ones) / 2, N - ones] {
                if ones == N && start > 0 || ones == 80 && start == 0 {
                    continue;
                }
                let patch = self.hint_ones(start, ones);
                self.patched(&[patch], |cases| {
                    cases.refused_check(text, WHOLE_CHECK, number);
                });
            }
        }
    }

    /// Several faults at once, so that their order shows.
    fn orders(&mut self, text: Text) {
        let (i, j) = (self.numbers.below(N), self.numbers.below(N));
        let (t1, z, hint) = (self.t1_code(i, 2052), self.z_code(j, 50), self.hint_ones(0, 81));
        let long = Text { length: MESSAGE_TOP + 1, ..text };
        let wrong = Text { seed: text.seed + 1, length: text.length + 1 };
        for choice in 1..8 {
            let patches: Vec<Patch> = [&t1, &z, &hint]
                .into_iter()
                .enumerate()
                .filter(|(bit, _)| choice >> bit & 1 == 1)
                .map(|(_, patch)| patch.clone())
                .collect();
            let number = [4, 5, 6][(choice as u32).trailing_zeros() as usize];
            self.patched(&patches, |cases| {
                cases.refused_check(text, WHOLE_CHECK, number);
                cases.refused_check(wrong, WHOLE_CHECK, number);
                cases.refused_check(long, WHOLE_CHECK, 2);
                if choice == 7 {
                    cases.refused_check(long, [PUBLIC_KEY - 1, SIGNATURE - 1], 1);
                    cases.refused_check(long, [PUBLIC_KEY, SIGNATURE - 1], 1);
                }
            });
        }
    }

    /// One bit of the public key or of the signature, in each of their parts.
    fn flips(&mut self, text: Text) {
        let parts = [
            (Buffer::PublicKey, 0, SEED),
            (Buffer::PublicKey, T1_AT, PUBLIC_KEY),
            (Buffer::Signature, 0, Z_AT),
            (Buffer::Signature, Z_AT, HINT_AT),
            (Buffer::Signature, HINT_AT, SIGNATURE),
        ];
        for (buffer, start, end) in parts {
            for _ in 0..5 {
                let position = start + self.numbers.below(end - start);
                let bytes = vec![1 << self.numbers.below(8)];
                self.patched(&[Patch { buffer, position, bytes }], |cases| {
                    cases.damaged += 1;
                    assert_ne!(cases.writer.check(text, WHOLE_CHECK).number, 0);
                });
            }
        }
    }

    /// The signature of one message with another.
    fn other_messages(&mut self, text: Text) {
        for seed in [text.seed + 1, text.seed + 256, 9, 30000] {
            self.refused_check(Text { seed, length: text.length + 3 }, WHOLE_CHECK, 9);
        }
        for length in [text.length + 1, 200, 32767, 32768] {
            self.refused_check(Text { length, ..text }, WHOLE_CHECK, 9);
        }
    }
}
