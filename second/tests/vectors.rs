//! The vector file: it has what it must, and a reader sees a changed byte.

mod common;

use std::sync::OnceLock;

use common::hex;
use second::cases::{self, Summary};
use second::replay::{replay, Calls, Second};
use second::vectors::{digest, message, Answer, Header, CHECK, HEADER, MAKE_KEYS, SIGN};

/// The file takes seconds to make, so it is made once.
fn made() -> &'static (Vec<u8>, Summary) {
    static MADE: OnceLock<(Vec<u8>, Summary)> = OnceLock::new();
    MADE.get_or_init(cases::file)
}

/// Counts the calls by what they answered.
#[derive(Default)]
struct Counting {
    numbers: [u32; 10],
    places: Vec<(u32, u32)>,
    lengths: Vec<usize>,
}

impl Counting {
    fn seen(&mut self, answer: Answer) -> Answer {
        self.numbers[answer.number as usize] += 1;
        if !self.places.contains(&(answer.number, answer.place)) {
            self.places.push((answer.number, answer.place));
        }
        answer
    }
}

impl Calls for Counting {
    fn make_keys(&mut self, zeta: &[u8], zeta_prime: &[u8], public: &mut [u8], secret: &mut [u8]) -> Answer {
        let answer = Second.make_keys(zeta, zeta_prime, public, secret);
        self.seen(answer)
    }

    fn sign(&mut self, secret: &[u8], message: &[u8], limit: u32, signature: &mut [u8]) -> Answer {
        let answer = Second.sign(secret, message, limit, signature);
        if answer.number == 0 {
            self.lengths.push(message.len());
        }
        self.seen(answer)
    }

    fn check(&mut self, public: &[u8], signature: &[u8], message: &[u8]) -> Answer {
        let answer = Second.check(public, signature, message);
        self.seen(answer)
    }
}

#[test]
fn the_file_has_what_it_must() {
    let (file, has) = made();
    assert!(file.len() < 400_000);
    assert!(has.signatures >= 100 && has.whole >= 40 && has.spent >= 10 && has.damaged >= 300);
    assert!(has.most_tries >= 8 && has.tries < 600);
    let mut counting = Counting::default();
    let counts = replay(file, &mut counting).unwrap();
    assert_eq!(counts, has.counts);
    assert!(counts[0] >= 40 && counts[2] < 600);
    assert!(counting.lengths.contains(&0) && counting.lengths.contains(&32768));
    // Every number but 7, which no real hash gives.
    for (number, &count) in counting.numbers.iter().enumerate() {
        assert_eq!(count > 0, number != 7, "number {number}");
    }
    for place in [(1, 1), (1, 2), (1, 3), (1, 4), (1, 5), (4, 17), (4, 19), (4, 20), (5, 22)] {
        assert!(counting.places.contains(&place), "{place:?}");
    }
}

#[test]
fn the_file_is_the_same_each_time() {
    assert_eq!(hex(&digest(&[&cases::file().0])), hex(&digest(&[&made().0])));
}

#[test]
fn a_reader_sees_a_changed_byte() {
    let (file, _) = made();
    // The first record of each kind of call, and where it begins.
    let mut left = &file[..];
    let mut firsts: [Option<(usize, Header)>; 3] = [None; 3];
    while firsts.contains(&None) {
        let at = file.len() - left.len();
        let header = Header::read(&mut left).unwrap();
        left = &left[header.bytes..];
        if let MAKE_KEYS | SIGN | CHECK = header.kind {
            firsts[header.kind as usize - 1].get_or_insert((at, header));
        }
    }
    for (at, header) in firsts.into_iter().flatten() {
        // The number, the place, the index, the tries; then the last expected byte.
        let mut places = vec![at + 4, at + 8, at + 12, at + 16];
        if header.bytes > 0 {
            places.push(at + 4 * HEADER + header.bytes - 1);
        }
        for place in places {
            let mut changed = file.clone();
            changed[place] ^= 1;
            assert!(replay(&changed, &mut Second).is_err(), "byte {place}");
        }
    }
    for cut in [1, 4 * HEADER, 4 * HEADER + 1, file.len()] {
        assert!(replay(&file[..file.len() - cut], &mut Second).is_err());
    }
}

#[test]
fn the_message_of_a_seed() {
    assert_eq!(message(0, 4), [0, 1, 2, 3]);
    assert_eq!(message(0x0105, 4), [5, 8, 11, 14]);
    let long = message(0x7fff, 32769);
    assert_eq!((long[0], long[256], long[257], long[32768]), (255, 0, 255, 127));
}
