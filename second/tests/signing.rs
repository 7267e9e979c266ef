//! Keys, signatures and checks: whole, damaged and refused.

mod common;

use common::{hashed, hex, keys, put_code, signed, Numbers};
use second::refusal::{Buffer, Field, Refusal};
use second::scheme::{check, make_keys, sign, tries, Signing};
use second::set::*;

fn refused(refusal: Refusal, tries: u32) -> Signing {
    Signing { refusal: Some(refusal), tries }
}

/// Where the fields begin.
const S1: usize = 96;
const S2: usize = S1 + 288;
const T0: usize = S2 + 288;
const Z: usize = 32;
const HINT: usize = Z + 2736;

/// A short reading of 01 in Python, with hashlib for SHAKE256 and long numbers
/// for the product, gave this hash of 8 key pairs and 40 signatures. The same
/// author wrote it, so it guards against slips and not against misreadings.
const TRANSCRIPT: &str = "422763b4faf5b034a9a76d75220529c93dccdfbbfce383d658558fd7622aafb8";

#[test]
fn keys_and_signatures_match_a_python_reading() {
    let mut transcript = Vec::new();
    for number in 0..8u8 {
        let keys = keys(number);
        transcript.extend(&keys.public);
        transcript.extend(&keys.secret);
        for length in [0, 1, 100, 3000 + usize::from(number), 32768] {
            let seed = [&[number][..], &(length as u32).to_le_bytes()].concat();
            let message = hashed(&seed, length);
            let signature = signed(&keys, &message);
            assert_eq!(check(&keys.public, &signature, &message), Ok(()));
            transcript.extend(signature);
        }
    }
    assert_eq!(hex(&hashed(&transcript, 32)), TRANSCRIPT);
}

#[test]
fn tries_are_counted() {
    let keys = keys(0);
    // The same reading in Python says how these tries end.
    assert_eq!(tries(&keys.secret, b"", 1000), [3, 2, 0]);
    assert_eq!(tries(&keys.secret, b"", 2), [3, 2]);
    let mut signature = [0xaa; SIGNATURE];
    for limit in [1, 2] {
        assert_eq!(sign(&keys.secret, b"", limit, &mut signature), refused(Refusal::Spent, limit));
        assert_eq!(signature, [0xaa; SIGNATURE]);
    }
    for limit in [3, 4, 1000] {
        signature.fill(0xaa);
        assert_eq!(sign(&keys.secret, b"", limit, &mut signature), Signing { refusal: None, tries: 3 });
        assert_eq!(signature.as_slice(), signed(&keys, b""));
    }
}

#[test]
fn running_limits() {
    let keys = keys(0);
    let mut signature = [0xaa; SIGNATURE];
    for limit in [0, 1001, u32::MAX] {
        assert_eq!(sign(&keys.secret, b"", limit, &mut signature), refused(Refusal::TryLimit, 0));
        assert_eq!(signature, [0xaa; SIGNATURE]);
        assert!(tries(&keys.secret, b"", limit).is_empty());
    }
    for limit in [1, 1000] {
        assert_ne!(sign(&keys.secret, b"", limit, &mut signature).refusal, Some(Refusal::TryLimit));
    }
}

#[test]
fn running_messages() {
    let keys = keys(3);
    for length in [0, 32768] {
        let message = vec![5; length];
        assert_eq!(check(&keys.public, &signed(&keys, &message), &message), Ok(()));
    }
    let long = vec![5; 32769];
    let mut signature = [0xaa; SIGNATURE];
    assert_eq!(sign(&keys.secret, &long, 1000, &mut signature), refused(Refusal::LongMessage, 0));
    assert_eq!(check(&keys.public, &signature, &long), Err(Refusal::LongMessage));
    assert_eq!(signature, [0xaa; SIGNATURE]);
}

/// "Passes" means that this test is passed. The hash differs after it.
#[test]
fn running_hints() {
    let keys = keys(1);
    let good = signed(&keys, b"hints");
    for (ones, expected) in [
        (80, Refusal::Differs),
        (81, Refusal::Hint),
        (256, Refusal::Hint),
        (336, Refusal::Hint),
        (1152, Refusal::Hint),
    ] {
        for start in [0, 1152 - ones] {
            let mut signature = good.clone();
            for index in 0..1152 {
                let one = start <= index && index < start + ones;
                put_code(&mut signature[HINT..], 1, index, u32::from(one));
            }
            assert_eq!(check(&keys.public, &signature, b"hints"), Err(expected));
        }
    }
}

#[test]
fn running_z() {
    let keys = keys(1);
    let good = signed(&keys, b"z");
    for index in [0, 1, 700, 1151] {
        for (z, passes) in [(262093, true), (262094, false), (-262093, true), (-262094, false)] {
            let mut signature = good.clone();
            put_code(&mut signature[Z..HINT], 19, index, (262144 - z) as u32);
            let expected = if passes { Refusal::Differs } else { Refusal::Coefficient(Field::Z, index) };
            assert_eq!(check(&keys.public, &signature, b"z"), Err(expected));
        }
    }
}

#[test]
fn running_t1() {
    let keys = keys(1);
    let good = signed(&keys, b"t1");
    for index in [0, 1, 700, 1151] {
        for (code, expected) in [
            (2051, Refusal::Differs),
            (2052, Refusal::Coefficient(Field::T1, index)),
            (4095, Refusal::Coefficient(Field::T1, index)),
        ] {
            let mut public = keys.public.clone();
            put_code(&mut public[32..], 12, index, code);
            assert_eq!(check(&public, &good, b"t1"), Err(expected));
        }
    }
}

#[test]
fn damaged_inputs_are_never_accepted() {
    let keys = keys(2);
    let message: Vec<u8> = (0..500).map(|i| (i * i) as u8).collect();
    let signature = signed(&keys, &message);
    assert_eq!(check(&keys.public, &signature, &message), Ok(()));
    let mut numbers = Numbers::new("damage");
    let mut damage = |bytes: &[u8]| {
        let mut bytes = bytes.to_vec();
        let place = numbers.below(8 * bytes.len());
        bytes[place / 8] ^= 1 << (place % 8);
        (place / 8, bytes)
    };
    for _ in 0..150 {
        let (place, damaged) = damage(&signature);
        let refusal = check(&keys.public, &damaged, &message).unwrap_err();
        assert!(match refusal {
            Refusal::Differs => true,
            Refusal::Coefficient(Field::Z, _) => (Z..HINT).contains(&place),
            _ => false,
        });
        let (place, damaged) = damage(&keys.public);
        let refusal = check(&damaged, &signature, &message).unwrap_err();
        assert!(match refusal {
            Refusal::Differs => true,
            Refusal::Coefficient(Field::T1, _) => place >= 32,
            _ => false,
        });
        let (_, damaged) = damage(&message);
        assert_eq!(check(&keys.public, &signature, &damaged), Err(Refusal::Differs));
    }
    assert_eq!(check(&keys.public, &signature, &message[1..]), Err(Refusal::Differs));
    assert_eq!(check(&keys.public, &signature, &[]), Err(Refusal::Differs));
    let other = common::keys(4);
    assert_eq!(check(&other.public, &signature, &message), Err(Refusal::Differs));
}

#[test]
fn a_damaged_secret_key_still_ends() {
    let keys = keys(2);
    let mut numbers = Numbers::new("secret damage");
    for _ in 0..60 {
        let mut secret = keys.secret.clone();
        let place = numbers.below(8 * SECRET_KEY);
        secret[place / 8] ^= 1 << (place % 8);
        let mut signature = [0xaa; SIGNATURE];
        let answer = sign(&secret, b"m", 1000, &mut signature);
        match answer.refusal {
            None => match place / 8 {
                // K only makes the mask, so any K signs.
                64..S1 => assert_eq!(check(&keys.public, &signature, b"m"), Ok(())),
                // A small slip in s2 or t0 may leave all high bits as they are.
                S2.. => {}
                _ => assert_eq!(check(&keys.public, &signature, b"m"), Err(Refusal::Differs)),
            },
            Some(refusal) => {
                let bad = |start: usize| (place / 8 - start) * 4 + place % 8 / 2;
                let expected = match place / 8 {
                    S1..S2 => Refusal::Coefficient(Field::S1, bad(S1)),
                    S2..T0 => Refusal::Coefficient(Field::S2, bad(S2)),
                    _ => panic!("refused at byte {}", place / 8),
                };
                assert_eq!((refusal, answer.tries), (expected, 0));
                assert_eq!(signature, [0xaa; SIGNATURE]);
            }
        }
    }
}

#[test]
fn order_in_key_making() {
    let (right, short, long) = ([1; 32], [1; 31], [1; 33]);
    let (mut public, mut secret) = ([0xaa; PUBLIC_KEY + 1], [0xaa; SECRET_KEY + 1]);
    let length = |buffer| Err(Refusal::Length(buffer));
    assert_eq!(make_keys(&short, &short, &mut public, &mut secret), length(Buffer::Zeta));
    assert_eq!(make_keys(&long, &right, &mut public[1..], &mut secret[1..]), length(Buffer::Zeta));
    assert_eq!(make_keys(&right, &long, &mut public, &mut secret), length(Buffer::ZetaPrime));
    assert_eq!(make_keys(&right, &[], &mut public[1..], &mut secret[1..]), length(Buffer::ZetaPrime));
    assert_eq!(make_keys(&right, &right, &mut public, &mut secret), length(Buffer::PublicKey));
    assert_eq!(make_keys(&right, &right, &mut public[2..], &mut secret[1..]), length(Buffer::PublicKey));
    assert_eq!(make_keys(&right, &right, &mut public[1..], &mut secret), length(Buffer::SecretKey));
    assert_eq!(make_keys(&right, &right, &mut public[1..], &mut secret[2..]), length(Buffer::SecretKey));
    assert_eq!((public, secret), ([0xaa; PUBLIC_KEY + 1], [0xaa; SECRET_KEY + 1]));
    assert_eq!(make_keys(&right, &right, &mut public[1..], &mut secret[1..]), Ok(()));
}

/// Each call below has the faults of all that come after it.
#[test]
fn order_in_signing() {
    let keys = keys(5);
    let long = vec![0; 32769];
    let mut secret = keys.secret.clone();
    put_code(&mut secret[S1..S2], 2, 900, 3);
    put_code(&mut secret[S1..S2], 2, 901, 3);
    put_code(&mut secret[S2..T0], 2, 4, 3);
    let mut buffer = [0xaa; SIGNATURE + 1];
    let length = |buffer| refused(Refusal::Length(buffer), 0);
    for wrong in [&secret[1..], &[]] {
        assert_eq!(sign(wrong, &long, 0, &mut buffer), length(Buffer::SecretKey));
        assert_eq!(sign(wrong, b"", 1, &mut buffer[1..]), length(Buffer::SecretKey));
    }
    assert_eq!(sign(&secret, &long, 0, &mut buffer), length(Buffer::Signature));
    assert_eq!(sign(&secret, &long, 0, &mut buffer[2..]), length(Buffer::Signature));
    assert_eq!(sign(&secret, &long, 0, &mut []), length(Buffer::Signature));
    let signature = &mut buffer[1..];
    assert_eq!(sign(&secret, &long, 0, signature), refused(Refusal::LongMessage, 0));
    assert_eq!(sign(&secret, b"", 0, signature), refused(Refusal::TryLimit, 0));
    assert_eq!(sign(&secret, b"", 1, signature), refused(Refusal::Coefficient(Field::S1, 900), 0));
    put_code(&mut secret[S1..S2], 2, 900, 2);
    assert_eq!(sign(&secret, b"", 1, signature), refused(Refusal::Coefficient(Field::S1, 901), 0));
    put_code(&mut secret[S1..S2], 2, 901, 2);
    assert_eq!(sign(&secret, b"", 1, signature), refused(Refusal::Coefficient(Field::S2, 4), 0));
    assert!(tries(&secret, b"", 1).is_empty());
    assert_eq!(buffer, [0xaa; SIGNATURE + 1]);
}

#[test]
fn order_in_checking() {
    let keys = keys(5);
    let long = vec![0; 32769];
    let good = signed(&keys, b"order");
    let mut public = keys.public.clone();
    let mut signature = good.clone();
    put_code(&mut public[32..], 12, 1000, 2052);
    put_code(&mut signature[Z..HINT], 19, 20, 50);
    put_code(&mut signature[Z..HINT], 19, 30, 524238);
    signature[HINT..].fill(0xff);
    assert_eq!(check(&public[1..], &signature[1..], &long), Err(Refusal::Length(Buffer::PublicKey)));
    assert_eq!(check(&[], &good, b"order"), Err(Refusal::Length(Buffer::PublicKey)));
    assert_eq!(check(&public, &signature[1..], &long), Err(Refusal::Length(Buffer::Signature)));
    assert_eq!(check(&public, &[], &long), Err(Refusal::Length(Buffer::Signature)));
    assert_eq!(check(&public, &signature, &long), Err(Refusal::LongMessage));
    assert_eq!(check(&public, &signature, b""), Err(Refusal::Coefficient(Field::T1, 1000)));
    assert_eq!(check(&keys.public, &signature, b""), Err(Refusal::Coefficient(Field::Z, 20)));
    put_code(&mut signature[Z..HINT], 19, 20, 51);
    assert_eq!(check(&keys.public, &signature, b""), Err(Refusal::Coefficient(Field::Z, 30)));
    put_code(&mut signature[Z..HINT], 19, 30, 524237);
    assert_eq!(check(&keys.public, &signature, b""), Err(Refusal::Hint));
    signature[HINT..].fill(0);
    assert_eq!(check(&keys.public, &signature, b""), Err(Refusal::Differs));
}

/// A made-up t0 gives many hints, so that the fifth reason can be seen too.
/// The fourth can't: 2 * 25 * 2048 is below gamma2.
#[test]
fn many_hints_fail_a_try() {
    let mut keys = keys(6);
    keys.secret[T0..].fill(0);
    let mut seen = [0; 6];
    for number in 0..100u8 {
        let reasons = tries(&keys.secret, &[number], 1000);
        let mut signature = [0xaa; SIGNATURE];
        let answer = sign(&keys.secret, &[number], 1000, &mut signature);
        assert_eq!((answer.refusal, answer.tries as usize), (None, reasons.len()));
        for reason in reasons {
            seen[usize::from(reason)] += 1;
        }
    }
    assert_eq!((seen[0], seen[1], seen[4]), (100, 0, 0));
    assert!(seen[2] > 0 && seen[3] > 0 && seen[5] > 0, "{seen:?}");
}

/// 002 expects 1.93 tries on average.
#[test]
fn mean_count_of_tries() {
    let keys = keys(7);
    let mut total = 0;
    for number in 0..1000u32 {
        let reasons = tries(&keys.secret, &number.to_le_bytes(), 1000);
        assert_eq!(reasons.last(), Some(&0));
        total += reasons.len();
    }
    assert!((1780..2080).contains(&total), "{total}");
}

#[test]
fn numbers_of_the_refusals() {
    let all = [
        (Refusal::Length(Buffer::Zeta), 1),
        (Refusal::LongMessage, 2),
        (Refusal::TryLimit, 3),
        (Refusal::Coefficient(Field::T1, 0), 4),
        (Refusal::Coefficient(Field::T0, 0), 4),
        (Refusal::Coefficient(Field::S1, 0), 4),
        (Refusal::Coefficient(Field::S2, 0), 4),
        (Refusal::Coefficient(Field::S, 0), 4),
        (Refusal::Coefficient(Field::W1, 0), 4),
        (Refusal::Coefficient(Field::Z, 0), 5),
        (Refusal::Hint, 6),
        (Refusal::Dry, 7),
        (Refusal::Spent, 8),
        (Refusal::Differs, 9),
    ];
    for (refusal, number) in all {
        assert_eq!(refusal.number(), number);
    }
}
