//! Makes keys from two fixed seeds, signs an event file, checks it, flips a bit and checks again.
//!
//! Build, from the repository's root, once `rt lib` in crates/ncc_c has written the archive:
//!
//!     mkdir -p target
//!     rustc --edition 2021 -O -o target/sign_and_check_rust examples/rust/sign_and_check.rs -C link-arg=crates/ncc_c/out/libncc_c.a
//!
//! Run:
//!
//!     target/sign_and_check_rust examples/event.csv
//!
//! The exit status is 0 if each call answers what this file says it must. It prints what the example in C prints.

use std::io::Read;
use std::process::ExitCode;

/// The archive as it is: see include/ncc_sign.h for what each call does.
mod archive {
    extern "C" {
        pub fn ncc_make_keys(
            zeta: *const u8,
            zeta_len: usize,
            zeta_prime: *const u8,
            zeta_prime_len: usize,
            public_key: *mut u8,
            public_key_len: usize,
            secret_key: *mut u8,
            secret_key_len: usize,
        ) -> u64;
        pub fn ncc_sign(
            secret_key: *const u8,
            secret_key_len: usize,
            message: *const u8,
            message_len: usize,
            limit: u32,
            signature: *mut u8,
            signature_len: usize,
        ) -> u64;
        pub fn ncc_check(
            public_key: *const u8,
            public_key_len: usize,
            signature: *const u8,
            signature_len: usize,
            message: *const u8,
            message_len: usize,
        ) -> u64;
    }
}

const SEED: usize = 32;
const PUBLIC_KEY: usize = 1760;
const SECRET_KEY: usize = 2400;
const SIGNATURE: usize = 2912;
const MESSAGE_MAX: usize = 32_768;
const LIMIT_MAX: u32 = 1_000;

/// What a call answered.
#[derive(Clone, Copy)]
struct Answer(u64);

impl Answer {
    fn number(self) -> u64 {
        self.0 & 0xff
    }

    fn place(self) -> u64 {
        self.0 >> 8 & 0xff
    }

    fn index(self) -> u64 {
        self.0 >> 16 & 0xffff
    }

    fn tries(self) -> u64 {
        self.0 >> 32
    }
}

// Rust's slices keep every rule of the header: the lengths are true, a `&mut` slice overlaps nothing, the pointer is
// aligned and never null. So these three calls are safe for every argument.

fn make_keys(zeta: &[u8], zeta_prime: &[u8], public_key: &mut [u8], secret_key: &mut [u8]) -> Answer {
    Answer(unsafe {
        archive::ncc_make_keys(
            zeta.as_ptr(),
            zeta.len(),
            zeta_prime.as_ptr(),
            zeta_prime.len(),
            public_key.as_mut_ptr(),
            public_key.len(),
            secret_key.as_mut_ptr(),
            secret_key.len(),
        )
    })
}

fn sign(secret_key: &[u8], message: &[u8], limit: u32, signature: &mut [u8]) -> Answer {
    Answer(unsafe {
        archive::ncc_sign(
            secret_key.as_ptr(),
            secret_key.len(),
            message.as_ptr(),
            message.len(),
            limit,
            signature.as_mut_ptr(),
            signature.len(),
        )
    })
}

fn check(public_key: &[u8], signature: &[u8], message: &[u8]) -> Answer {
    Answer(unsafe {
        archive::ncc_check(
            public_key.as_ptr(),
            public_key.len(),
            signature.as_ptr(),
            signature.len(),
            message.as_ptr(),
            message.len(),
        )
    })
}

fn number_in_words(number: u64) -> &'static str {
    match number {
        0 => "done",
        1 => "a buffer has the wrong length",
        2 => "the message is longer than 32768 bytes",
        3 => "the try limit is not within 1 to 1000",
        4 => "a key holds a code outside its range",
        5 => "the signature holds a code of z outside its range",
        6 => "the signature has more than 80 hint ones",
        7 => "a stream ran dry",
        8 => "every try failed",
        9 => "not a signature of this message under this key",
        _ => "a number that this program does not know",
    }
}

fn place_in_words(place: u64) -> Option<&'static str> {
    Some(match place {
        1 => "the public key",
        2 => "the secret key",
        3 => "the seed zeta",
        4 => "the seed zeta'",
        5 => "the signature",
        17 => "t1 of the public key",
        19 => "s1 of the secret key",
        20 => "s2 of the secret key",
        22 => "z of the signature",
        _ => return None,
    })
}

/// Says what a call answered. It is an error if that is not the number that was expected.
fn say(what: &str, answer: Answer, expected: u64) -> Result<(), String> {
    let mut line = format!("{what}: {}, {}", answer.number(), number_in_words(answer.number()));
    if let Some(place) = place_in_words(answer.place()) {
        line += &format!("; {place}");
    }
    if let 4 | 5 = answer.number() {
        line += &format!(", index {}", answer.index());
    }
    if answer.tries() > 0 {
        line += &format!("; tries: {}", answer.tries());
    }
    println!("{line}");
    if answer.number() == expected {
        Ok(())
    } else {
        Err(format!("{what}: expected number {expected}"))
    }
}

fn read(path: &str) -> Result<Vec<u8>, String> {
    let mut event = Vec::new();
    let file = std::fs::File::open(path).map_err(|_| format!("can't open {path}"))?;
    // One byte more than a message may have, so that a longer file shows. The library then refuses it.
    match file.take(MESSAGE_MAX as u64 + 1).read_to_end(&mut event) {
        Ok(count) if count > 0 => Ok(event),
        _ => Err(format!("can't read {path}, or it is empty")),
    }
}

fn run(mut event: Vec<u8>) -> Result<(), String> {
    // A real recorder draws both seeds from its source of randomness and keeps zeta' secret.
    let zeta: [u8; SEED] = std::array::from_fn(|i| i as u8);
    let zeta_prime: [u8; SEED] = std::array::from_fn(|i| 100 + i as u8);

    let mut public_key = [0; PUBLIC_KEY];
    let mut secret_key = [0; SECRET_KEY];
    say("make keys", make_keys(&zeta, &zeta_prime, &mut public_key, &mut secret_key), 0)?;

    let mut signature = [0; SIGNATURE];
    say("sign the event", sign(&secret_key, &event, LIMIT_MAX, &mut signature), 0)?;
    say("check it", check(&public_key, &signature, &event), 0)?;

    let middle = event.len() / 2;
    event[middle] ^= 0x10;
    say("check with one bit of the event flipped", check(&public_key, &signature, &event), 9)?;
    event[middle] ^= 0x10;

    signature[0] ^= 0x01;
    say("check with one bit of the signature flipped", check(&public_key, &signature, &event), 9)?;
    signature[0] ^= 0x01;

    let short = &signature[..SIGNATURE - 1];
    say("check a signature that is cut short", check(&public_key, short, &event), 1)?;
    say("check it again, whole", check(&public_key, &signature, &event), 0)
}

fn main() -> ExitCode {
    let arguments: Vec<String> = std::env::args().collect();
    let [_, path] = arguments.as_slice() else {
        eprintln!("usage: sign_and_check EVENT-FILE");
        return ExitCode::from(2);
    };
    let event = match read(path) {
        Ok(event) => event,
        Err(why) => {
            eprintln!("sign_and_check: {why}");
            return ExitCode::from(2);
        }
    };
    match run(event) {
        Ok(()) => ExitCode::SUCCESS,
        Err(why) => {
            eprintln!("sign_and_check: {why}");
            ExitCode::from(1)
        }
    }
}
