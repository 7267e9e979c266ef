//! What the archive does with (NULL, 0), which C programs pass for an empty buffer.
//!
//! Each case runs in a process of its own, since it may end that process.

use std::process::{Command, ExitCode};
use std::ptr::{null, null_mut};

use crate::answer::shown;
use crate::archive::*;

/// An empty buffer in each place that takes one: the call with NULL, and with a pointer.
type Case = (&'static str, fn(bool) -> u64);

fn bytes(as_null: bool) -> *const u8 {
    if as_null {
        null()
    } else {
        [0u8; 8].as_slice().as_ptr()
    }
}

fn bytes_mut(as_null: bool) -> *mut u8 {
    if as_null {
        null_mut()
    } else {
        // Not written: the length is 0.
        std::ptr::NonNull::dangling().as_ptr()
    }
}

fn numbers(as_null: bool) -> *const i32 {
    if as_null {
        null()
    } else {
        std::ptr::NonNull::dangling().as_ptr()
    }
}

fn numbers_mut(as_null: bool) -> *mut i32 {
    numbers(as_null).cast_mut()
}

/// Keys and a signature for the calls that come as far as their message.
fn keys() -> ([u8; 1760], [u8; 2400], [u8; 2912]) {
    let (mut public, mut secret, mut signature) = ([0; 1760], [0; 2400], [0; 2912]);
    unsafe {
        let seed = [7; 32];
        ncc_make_keys(seed.as_ptr(), 32, seed.as_ptr(), 32, public.as_mut_ptr(), 1760, secret.as_mut_ptr(), 2400);
        ncc_sign(secret.as_ptr(), 2400, bytes(false), 0, 1000, signature.as_mut_ptr(), 2912);
    }
    (public, secret, signature)
}

macro_rules! into_numbers {
    ($name:literal, $call:ident) => {
        [
            (concat!($name, ": input"), |n| unsafe { $call(bytes(n), 0, [0; 1152].as_mut_ptr(), 1152) }),
            (concat!($name, ": out"), |n| unsafe { $call([0; 20_000].as_ptr(), 20_000, numbers_mut(n), 0) }),
        ]
    };
}

macro_rules! into_bytes {
    ($name:literal, $call:ident) => {
        [
            (concat!($name, ": values"), |n| unsafe { $call(numbers(n), 0, [0; 2736].as_mut_ptr(), 2736) }),
            (concat!($name, ": out"), |n| unsafe { $call([0; 1152].as_ptr(), 1152, bytes_mut(n), 0) }),
        ]
    };
}

fn cases() -> Vec<Case> {
    let mut cases: Vec<Case> = vec![
        ("ncc_shake256: in", |n| unsafe {
            let mut out = [0; 8];
            ncc_shake256(bytes(n), 0, out.as_mut_ptr(), 8);
            u64::from_le_bytes(out)
        }),
        ("ncc_shake256: out", |n| unsafe { ncc_shake256([0; 200].as_ptr(), 200, bytes_mut(n), 0) }),
        ("ncc_shake256: both", |n| unsafe { ncc_shake256(bytes(n), 0, bytes_mut(n), 0) }),
        ("ncc_make_keys: zeta", |n| unsafe {
            ncc_make_keys(bytes(n), 0, [0; 32].as_ptr(), 32, [0; 1760].as_mut_ptr(), 1760, [0; 2400].as_mut_ptr(), 2400)
        }),
        ("ncc_make_keys: zeta_prime", |n| unsafe {
            ncc_make_keys([0; 32].as_ptr(), 32, bytes(n), 0, [0; 1760].as_mut_ptr(), 1760, [0; 2400].as_mut_ptr(), 2400)
        }),
        ("ncc_make_keys: public_key", |n| unsafe {
            ncc_make_keys([0; 32].as_ptr(), 32, [1; 32].as_ptr(), 32, bytes_mut(n), 0, [0; 2400].as_mut_ptr(), 2400)
        }),
        ("ncc_make_keys: secret_key", |n| unsafe {
            ncc_make_keys([0; 32].as_ptr(), 32, [1; 32].as_ptr(), 32, [0; 1760].as_mut_ptr(), 1760, bytes_mut(n), 0)
        }),
        ("ncc_make_keys: all", |n| unsafe {
            ncc_make_keys(bytes(n), 0, bytes(n), 0, bytes_mut(n), 0, bytes_mut(n), 0)
        }),
        ("ncc_sign: secret_key", |n| unsafe {
            ncc_sign(bytes(n), 0, [0; 8].as_ptr(), 8, 1, [0; 2912].as_mut_ptr(), 2912)
        }),
        ("ncc_sign: message, signed", |n| unsafe {
            let (_, secret, _) = keys();
            ncc_sign(secret.as_ptr(), 2400, bytes(n), 0, 1000, [0; 2912].as_mut_ptr(), 2912)
        }),
        ("ncc_sign: signature", |n| unsafe {
            let (_, secret, _) = keys();
            ncc_sign(secret.as_ptr(), 2400, [0; 8].as_ptr(), 8, 1, bytes_mut(n), 0)
        }),
        ("ncc_check: public_key", |n| unsafe { ncc_check(bytes(n), 0, [0; 2912].as_ptr(), 2912, [0; 8].as_ptr(), 8) }),
        ("ncc_check: signature", |n| unsafe {
            let (public, ..) = keys();
            ncc_check(public.as_ptr(), 1760, bytes(n), 0, [0; 8].as_ptr(), 8)
        }),
        ("ncc_check: message, accepted", |n| unsafe {
            let (public, _, signature) = keys();
            ncc_check(public.as_ptr(), 1760, signature.as_ptr(), 2912, bytes(n), 0)
        }),
        ("ncc_product: first", |n| unsafe {
            ncc_product(numbers(n), 0, [0; 1152].as_ptr(), 1152, [0; 1152].as_mut_ptr(), 1152)
        }),
        ("ncc_product: second", |n| unsafe {
            ncc_product([0; 1152].as_ptr(), 1152, numbers(n), 0, [0; 1152].as_mut_ptr(), 1152)
        }),
        ("ncc_product: out", |n| unsafe {
            ncc_product([0; 1152].as_ptr(), 1152, [0; 1152].as_ptr(), 1152, numbers_mut(n), 0)
        }),
    ];
    cases.extend(into_numbers!("ncc_sample_a", ncc_sample_a) as [Case; 2]);
    cases.extend(into_numbers!("ncc_sample_s", ncc_sample_s) as [Case; 2]);
    cases.extend(into_numbers!("ncc_sample_challenge", ncc_sample_challenge) as [Case; 2]);
    cases.extend(into_numbers!("ncc_unpack_t1", ncc_unpack_t1) as [Case; 2]);
    cases.extend(into_numbers!("ncc_unpack_t0", ncc_unpack_t0) as [Case; 2]);
    cases.extend(into_numbers!("ncc_unpack_s", ncc_unpack_s) as [Case; 2]);
    cases.extend(into_numbers!("ncc_unpack_z", ncc_unpack_z) as [Case; 2]);
    cases.extend(into_numbers!("ncc_unpack_w1", ncc_unpack_w1) as [Case; 2]);
    cases.extend(into_bytes!("ncc_pack_t1", ncc_pack_t1) as [Case; 2]);
    cases.extend(into_bytes!("ncc_pack_t0", ncc_pack_t0) as [Case; 2]);
    cases.extend(into_bytes!("ncc_pack_s", ncc_pack_s) as [Case; 2]);
    cases.extend(into_bytes!("ncc_pack_z", ncc_pack_z) as [Case; 2]);
    cases.extend(into_bytes!("ncc_pack_w1", ncc_pack_w1) as [Case; 2]);
    cases
}

/// One case, in the process that it may end. Prints both answers.
pub fn one(number: usize) -> ExitCode {
    match cases().get(number) {
        Some((_, case)) => {
            println!("{} {}", case(true), case(false));
            ExitCode::SUCCESS
        }
        None => ExitCode::from(2),
    }
}

/// All cases. Success if NULL makes no difference anywhere.
pub fn all() -> ExitCode {
    let Ok(program) = std::env::current_exe() else {
        eprintln!("compare: can't find this program's own file");
        return ExitCode::from(2);
    };
    let mut unlike = 0;
    for (number, (name, _)) in cases().iter().enumerate() {
        let said = Command::new(&program).arg("null-case").arg(number.to_string()).output();
        let verdict = match said {
            Err(error) => format!("can't be tried: {error}"),
            Ok(output) if !output.status.success() => format!("NULL ends the program: {}", output.status),
            Ok(output) => {
                let text = String::from_utf8_lossy(&output.stdout).into_owned();
                let answers: Vec<u64> = text.split_whitespace().filter_map(|word| word.parse().ok()).collect();
                match answers.as_slice() {
                    [with, without] if with == without => String::from("as with a pointer"),
                    [with, without] => format!("NULL: {}; a pointer: {}", shown(*with), shown(*without)),
                    _ => String::from("can't be tried: no two answers"),
                }
            }
        };
        unlike += usize::from(verdict != "as with a pointer");
        println!("{name:34} {verdict}");
    }
    println!("compare: (NULL, 0) in {} places, {unlike} unlike a pointer", cases().len());
    if unlike == 0 {
        ExitCode::SUCCESS
    } else {
        ExitCode::FAILURE
    }
}
