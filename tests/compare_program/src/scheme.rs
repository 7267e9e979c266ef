//! Keys, signatures and checks: whole, damaged in every field, and with every choice of faults at once.

use second::set::*;

use crate::answer;
use crate::calls::Calls;
use crate::layouts::put_code;

/// Where the fields begin in a secret key and in a signature.
const S1: usize = 3 * SEED;
const S2: usize = S1 + S_BYTES;
const T0: usize = S2 + S_BYTES;
const Z: usize = SEED;
const HINT: usize = Z + Z_BYTES;

const KEYS: usize = 600;
const SIGNED: usize = 5_000;
const MADE_UP: usize = 1_200;
const DAMAGED: usize = 10_000;

#[derive(Clone)]
struct Keys {
    public: Vec<u8>,
    secret: Vec<u8>,
}

/// A signature that checking accepts.
struct Signed {
    keys: usize,
    message: Vec<u8>,
    signature: Vec<u8>,
}

pub fn compare(calls: &mut Calls) {
    let keys = make_keys(calls);
    let signed = sign(calls, &keys);
    refused_signing(calls, &keys);
    made_up_secrets(calls, &keys);
    running(calls, &keys, &signed);
    damaged_checks(calls, &keys, &signed);
    refused_checking(calls, &keys, &signed);
}

fn make_keys(calls: &mut Calls) -> Vec<Keys> {
    calls.part("making keys");
    let mut keys = Vec::new();
    for count in 0..KEYS {
        let (mut zeta, mut zeta_prime) = (calls.numbers.bytes(SEED), calls.numbers.bytes(SEED));
        match count {
            0 => zeta.fill(0),
            1 => zeta_prime.fill(0),
            2 => zeta.fill(0xff),
            3 => zeta_prime.fill(0xff),
            4 => zeta_prime.clone_from(&zeta),
            _ => {}
        }
        let (answer, public, secret) = calls.make_keys(&zeta, &zeta_prime, [PUBLIC_KEY, SECRET_KEY]);
        calls.must("two seeds of 32 bytes", answer, 0);
        keys.push(Keys { public, secret });
    }
    // Every choice of right and wrong lengths of the four buffers.
    let right = [SEED, SEED, PUBLIC_KEY, SECRET_KEY];
    for wrong in [|_| 0, |_| 1, |right| right - 1, |right| right + 1, |right| 2 * right] as [fn(usize) -> usize; 5] {
        for choice in 1..16 {
            let length = |buffer: usize| if choice >> buffer & 1 == 1 { wrong(right[buffer]) } else { right[buffer] };
            let (zeta, zeta_prime) = (calls.numbers.bytes(length(0)), calls.numbers.bytes(length(1)));
            let (answer, ..) = calls.make_keys(&zeta, &zeta_prime, [length(2), length(3)]);
            calls.must("a wrong length", answer, 1);
        }
    }
    calls.report.part_done();
    keys
}

fn message(calls: &mut Calls) -> Vec<u8> {
    let length = match calls.numbers.below(6) {
        0 => calls.numbers.pick(&[0, 1, 31, 32, 33, 71, 72, 73, 103, 104, 105, 135, 136, 137]),
        1 => calls.numbers.pick(&[32_766, 32_767, 32_768]),
        2 => calls.numbers.below(32_769),
        _ => calls.numbers.below(400),
    };
    calls.numbers.bytes(length)
}

fn sign(calls: &mut Calls, keys: &[Keys]) -> Vec<Signed> {
    calls.part("signing");
    let mut signed = Vec::new();
    for count in 0..SIGNED {
        if count % 1_000 == 0 {
            calls.report.progress(&format!("message {count} of {SIGNED}"));
        }
        let number = calls.numbers.below(keys.len());
        let message = message(calls);
        let limit = match calls.numbers.below(4) {
            0 => 1 + calls.numbers.below(4) as u32,
            1 => 1 + calls.numbers.below(1000) as u32,
            _ => 1000,
        };
        let (answer, signature) = calls.sign(&keys[number].secret, &message, limit, SIGNATURE);
        let tries = answer::tries(answer) as u32;
        if answer::number(answer) == 0 {
            // With a limit of exactly the tries it passes, with one less it is spent.
            if count % 5 == 0 {
                let (again, _) = calls.sign(&keys[number].secret, &message, tries, SIGNATURE);
                calls.must("a limit that is just enough", again, 0);
                if tries > 1 {
                    let (again, _) = calls.sign(&keys[number].secret, &message, tries - 1, SIGNATURE);
                    calls.must("a limit that is one too low", again, 8);
                }
            }
            let accepted = calls.check(&keys[number].public, &signature, &message);
            calls.must("what signing signs, checking accepts", accepted, 0);
            signed.push(Signed { keys: number, message, signature });
        } else {
            calls.must("a limit that ran out", answer, 8);
        }
    }
    calls.report.part_done();
    signed
}

/// Every choice of the faults that signing can refuse, each fault in several forms.
fn refused_signing(calls: &mut Calls, keys: &[Keys]) {
    calls.part("refused signing");
    let long = calls.numbers.bytes(100_000);
    for round in 0..6 {
        for choice in 1..32u32 {
            let fault = |bit: usize| choice >> bit & 1 == 1;
            let mut secret = keys[calls.numbers.below(keys.len())].secret.clone();
            for (bit, start, end) in [(3, S1, S2), (4, S2, T0)] {
                if fault(bit) {
                    for _ in 0..=calls.numbers.below(3) {
                        let index = match round {
                            0 => calls.numbers.pick(&[0, N - 1]),
                            _ => calls.numbers.below(N),
                        };
                        put_code(&mut secret[start..end], S_BITS, index, 3);
                    }
                }
            }
            let message_length =
                if fault(1) { calls.numbers.pick(&[32_769, 32_770, 65_536, 98_304, 100_000]) } else { 40 };
            let limit = if fault(2) {
                calls.numbers.pick(&[0, 1001, 1002, 1024, 0x1_0000, 0x1_0001, 0x1_03e8, 0x8000_0000, u32::MAX])
            } else {
                calls.numbers.pick(&[1, 2, 1000])
            };
            let signature_length =
                if fault(0) { calls.numbers.pick(&[0, 1, SIGNATURE - 1, SIGNATURE + 1, 5000]) } else { SIGNATURE };
            let (answer, _) = calls.sign(&secret, &long[..message_length], limit, signature_length);
            calls.must(
                "the first fault in the order of the numbers",
                answer,
                [1, 2, 3, 4, 4][choice.trailing_zeros() as usize],
            );
            // The same with a key of a wrong length, which comes before all.
            let cut = calls.numbers.pick(&[0, 1, S1, SECRET_KEY - 1]);
            let (answer, _) = calls.sign(&secret[..cut], &long[..message_length], limit, signature_length);
            calls.must("a short secret key", answer, 1);
            secret.push(0);
            let (answer, _) = calls.sign(&secret, &long[..message_length], limit, signature_length);
            calls.must("a long secret key", answer, 1);
        }
    }
    // Each place of both secrets.
    for index in 0..N {
        let mut secret = keys[0].secret.clone();
        let (start, end) = if index % 2 == 0 { (S1, S2) } else { (S2, T0) };
        put_code(&mut secret[start..end], S_BITS, index, 3);
        let (answer, _) = calls.sign(&secret, b"", 1, SIGNATURE);
        calls.must("a bad code in a secret key", answer, 4);
    }
    calls.report.part_done();
}

/// Secret keys that no key making gives. Signing must still answer as the second program does.
fn made_up_secrets(calls: &mut Calls, keys: &[Keys]) {
    calls.part("made-up secret keys");
    for count in 0..MADE_UP {
        if count % 400 == 0 {
            calls.report.progress(&format!("key {count} of {MADE_UP}"));
        }
        let mut secret = keys[calls.numbers.below(keys.len())].secret.clone();
        match count % 8 {
            // One bit anywhere.
            0 => {
                let place = calls.numbers.below(8 * SECRET_KEY);
                secret[place / 8] ^= 1 << (place % 8);
            }
            // Any seeds and hashes.
            1 => secret[..S1].copy_from_slice(&calls.numbers.bytes(S1)),
            // Any t0: every code is allowed.
            2 => secret[T0..].copy_from_slice(&calls.numbers.bytes(T0_BYTES)),
            // The largest t0, which gives many hints, so that tries fail for their count.
            3 => secret[T0..].fill(0),
            4 => secret[T0..].fill(0xff),
            // Secrets of one value.
            5 => secret[S1..S2].fill(calls.numbers.pick(&[0x00, 0x55, 0xaa])),
            6 => secret[S2..T0].fill(calls.numbers.pick(&[0x00, 0x55, 0xaa])),
            // All of it at random: a bad code is all but certain.
            _ => secret = calls.numbers.bytes(SECRET_KEY),
        }
        let message = calls.numbers.bytes(count % 300);
        let limit = calls.numbers.pick(&[1, 3, 12, 1000]);
        let (answer, signature) = calls.sign(&secret, &message, limit, SIGNATURE);
        if answer::number(answer) == 0 {
            calls.check(&keys[0].public, &signature, &message);
        }
    }
    calls.report.part_done();
}

/// The list "By running" of document 01, at the numbers that it gives. "Passes" means that this rule is passed; a damaged
/// signature is then rejected for its hash.
fn running(calls: &mut Calls, keys: &[Keys], signed: &[Signed]) {
    calls.part("the limits that document 01 lists");
    let secret = &keys[0].secret;
    for (limit, number) in [(0, Some(3)), (1001, Some(3)), (1, None), (1000, None)] {
        for text in [&b""[..], b"limit", b"another"] {
            let (answer, _) = calls.sign(secret, text, limit, SIGNATURE);
            match number {
                Some(number) => calls.must("limit 0 or 1,001", answer, number),
                None if answer::number(answer) == 8 && limit == 1 => {}
                None => calls.must("limit 1 or 1,000", answer, 0),
            }
        }
    }
    for (length, number) in [(0, 0), (32_768, 0), (32_769, 2)] {
        let message = calls.numbers.bytes(length);
        let (answer, signature) = calls.sign(secret, &message, 1000, SIGNATURE);
        calls.must("a message of 0, 32,768 or 32,769 bytes", answer, number);
        let answer = calls.check(&keys[0].public, &signature, &message);
        calls.must("a message of 0, 32,768 or 32,769 bytes", answer, number);
    }
    for case in signed.iter().take(30) {
        let public = &keys[case.keys].public;
        for index in [0, 1, calls.numbers.below(N), N - 2, N - 1] {
            for (z, number) in [(262_093, 9), (262_094, 5), (262_144, 5), (-262_093, 9), (-262_094, 5), (-262_143, 5)] {
                let mut signature = case.signature.clone();
                put_code(&mut signature[Z..HINT], Z_BITS, index, (GAMMA1 - z) as u32);
                let answer = calls.check(public, &signature, &case.message);
                calls.must("z at an end of its range", answer, number);
            }
            for (code, number) in [(2051, 9), (2052, 4), (4095, 4)] {
                let mut damaged = public.clone();
                put_code(&mut damaged[SEED..], T1_BITS, index, code);
                // Where the key holds code 2051 already, nothing was damaged.
                let number = if &damaged == public { 0 } else { number };
                let answer = calls.check(&damaged, &case.signature, &case.message);
                calls.must("t1 at the end of its range", answer, number);
            }
        }
        for (ones, number) in
            [(0, 9), (79, 9), (80, 9), (81, 6), (82, 6), (255, 6), (256, 6), (257, 6), (336, 6), (337, 6), (1152, 6)]
        {
            let mut signature = case.signature.clone();
            signature[HINT..].fill(0);
            let mut left = ones;
            while left > 0 {
                let place = calls.numbers.below(N);
                let byte = &mut signature[HINT + place / 8];
                left -= usize::from(*byte >> (place % 8) & 1 == 0);
                *byte |= 1 << (place % 8);
            }
            let number = if signature == case.signature { 0 } else { number };
            let answer = calls.check(public, &signature, &case.message);
            calls.must("80 hint ones pass, 81 do not", answer, number);
        }
    }
    calls.report.part_done();
}

/// One fault in an input that was accepted: bits, bytes, codes, other messages and keys.
fn damaged_checks(calls: &mut Calls, keys: &[Keys], signed: &[Signed]) {
    calls.part("damaged checks");
    for count in 0..DAMAGED {
        if count % 2_000 == 0 {
            calls.report.progress(&format!("damage {count} of {DAMAGED}"));
        }
        let case = &signed[calls.numbers.below(signed.len())];
        let mut public = keys[case.keys].public.clone();
        let mut signature = case.signature.clone();
        let mut message = case.message.clone();
        // A bit of one part of the input, of each part in turn.
        let mut flip = |bytes: &mut [u8]| {
            if !bytes.is_empty() {
                let place = calls.numbers.below(8 * bytes.len());
                bytes[place / 8] ^= 1 << (place % 8);
            }
        };
        match count % 13 {
            0 => flip(&mut public[..SEED]),
            1 => flip(&mut public[SEED..]),
            2 => flip(&mut signature[..Z]),
            3 => flip(&mut signature[Z..HINT]),
            4 => flip(&mut signature[HINT..]),
            5 => flip(&mut message),
            6 => message.push(calls.numbers.next() as u8),
            7 => {
                message.pop();
            }
            8 => public.clone_from(&keys[calls.numbers.below(keys.len())].public),
            9 => signature.clone_from(&signed[calls.numbers.below(signed.len())].signature),
            // Several bad codes: the lowest is named.
            10 => {
                for _ in 0..=calls.numbers.below(3) {
                    let code = calls.numbers.pick(&[0, 1, 50, 51, 52, 524_236, 524_237, 524_238, 524_287]);
                    put_code(&mut signature[Z..HINT], Z_BITS, calls.numbers.below(N), code);
                }
            }
            11 => {
                for _ in 0..=calls.numbers.below(3) {
                    let code = calls.numbers.pick(&[0, 2050, 2051, 2052, 2053, 4094, 4095]);
                    put_code(&mut public[SEED..], T1_BITS, calls.numbers.below(N), code);
                }
            }
            _ => match count % 3 {
                0 => public = calls.numbers.bytes(PUBLIC_KEY),
                1 => signature = calls.numbers.bytes(SIGNATURE),
                _ => signature[HINT..].copy_from_slice(&calls.numbers.bytes(HINT_BYTES)),
            },
        }
        calls.check(&public, &signature, &message);
    }
    calls.report.part_done();
}

/// Every choice of the faults that checking can refuse, so that their order shows.
fn refused_checking(calls: &mut Calls, keys: &[Keys], signed: &[Signed]) {
    calls.part("refused checking");
    let long = calls.numbers.bytes(100_000);
    for _ in 0..4 {
        for choice in 0..64u32 {
            let fault = |bit: usize| choice >> bit & 1 == 1;
            let case = &signed[calls.numbers.below(signed.len())];
            let mut public = keys[case.keys].public.clone();
            let mut signature = case.signature.clone();
            if fault(3) {
                for _ in 0..=calls.numbers.below(2) {
                    let code = calls.numbers.between(2052, 4095) as u32;
                    put_code(&mut public[SEED..], T1_BITS, calls.numbers.below(N), code);
                }
            }
            if fault(4) {
                for _ in 0..=calls.numbers.below(2) {
                    let code = calls.numbers.pick(&[0, 50, 524_238, 524_287]);
                    put_code(&mut signature[Z..HINT], Z_BITS, calls.numbers.below(N), code);
                }
            }
            if fault(5) {
                signature[HINT..HINT + 40].fill(0xff);
            }
            let resized = |calls: &mut Calls, bytes: &mut Vec<u8>| {
                let length = calls.numbers.pick(&[0, 1, bytes.len() - 1, bytes.len() + 1, 2 * bytes.len()]);
                bytes.resize(length, 0);
            };
            if fault(0) {
                resized(calls, &mut public);
            }
            if fault(1) {
                resized(calls, &mut signature);
            }
            let message =
                if fault(2) { &long[..calls.numbers.pick(&[32_769, 65_536, 100_000])] } else { &case.message };
            let answer = calls.check(&public, &signature, message);
            let number = if choice == 0 { 0 } else { [1, 1, 2, 4, 5, 6][choice.trailing_zeros() as usize] };
            calls.must("the first fault in the order of the numbers", answer, number);
        }
    }
    // Each place of z and of t1.
    let case = &signed[0];
    for index in 0..N {
        let mut signature = case.signature.clone();
        put_code(&mut signature[Z..HINT], Z_BITS, index, if index % 2 == 0 { 50 } else { 524_238 });
        let answer = calls.check(&keys[case.keys].public, &signature, &case.message);
        calls.must("a bad code of z", answer, 5);
        let mut public = keys[case.keys].public.clone();
        put_code(&mut public[SEED..], T1_BITS, index, 2052);
        let answer = calls.check(&public, &case.signature, &case.message);
        calls.must("a bad code of t1", answer, 4);
    }
    calls.report.part_done();
}
