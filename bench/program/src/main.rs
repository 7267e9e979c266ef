//! Prints the table of times. bench/run builds and runs it.

mod calls;
mod native;
mod rounds;

use std::cell::RefCell;
use std::hint::black_box;
use std::process::ExitCode;
use std::time::Instant;

use calls::*;
use rounds::{medians, Call};
use second::scheme;
use second::set::*;
use second::shake::shake256 as second_shake256;

/// Messages that are signed.
const MESSAGES: usize = 1_000;
const MESSAGE_BYTES: usize = 2_000;

/// A line of the table.
struct Row {
    what: &'static str,
    ours: f64,
    other: &'static str,
    theirs: f64,
    /// The highest ratio that is asked for.
    at_most: f64,
}

/// 1234567.8 as 1,234,568.
fn grouped(number: f64) -> String {
    let digits = format!("{number:.0}");
    let mut text = String::new();
    for (index, digit) in digits.chars().enumerate() {
        if index > 0 && (digits.len() - index) % 3 == 0 {
            text.push(',');
        }
        text.push(digit);
    }
    text
}

impl Row {
    fn print(&self) {
        let ratio = self.ours / self.theirs;
        let over = if ratio > self.at_most { ", over" } else { "" };
        println!(
            "| {} | {} | {} | {} | {ratio:.3} | {}{over} |",
            self.what,
            grouped(self.ours),
            self.other,
            grouped(self.theirs),
            self.at_most
        );
    }
}

fn progress(what: &str) {
    eprintln!("bench: {what}");
}

/// The faster of two, with its name.
fn faster(names: [&'static str; 2], times: [f64; 2]) -> (&'static str, f64) {
    if times[0] <= times[1] {
        (names[0], times[0])
    } else {
        (names[1], times[1])
    }
}

fn stream(name: &[u8], length: usize) -> Vec<u8> {
    let mut out = vec![0; length];
    second_shake256(name, &mut out);
    out
}

fn element(name: &[u8]) -> Vec<i32> {
    let mut out = vec![0; N];
    second::sampling::sample_a(&stream(name, A_STREAM), &mut out).expect("a stream for a");
    out
}

fn permutation(rows: &mut Vec<Row>) {
    let Some(ours) = permutation_of_the_archive() else {
        progress("the archive has no function of its own for the permutation: no row for it");
        return;
    };
    progress("permutation");
    let states = RefCell::new([[0u64; 25]; 3]);
    let in_place = |index: usize, permute: Permute, times: usize| -> Call {
        let states = &states;
        Box::new(move |_| {
            for _ in 0..times {
                unsafe { permute(&mut states.borrow_mut()[index]) };
            }
        })
    };
    let mut calls = [in_place(0, ours, 1), in_place(1, keccak_unrolled, 2), in_place(2, keccak_compact, 2)];
    let found = medians(501, 25, &mut calls, || {
        let states = states.borrow();
        assert!(states[0] == states[1] && states[0] == states[2], "the permutations differ");
    });
    let (other, theirs) = faster(["C, unrolled", "C, over tables"], [found[1] / 2.0, found[2] / 2.0]);
    rows.push(Row { what: "permutation", ours: found[0] / 2.0, other, theirs, at_most: 1.1 });
}

fn permutation_of_the_archive() -> Option<Permute> {
    calls::permutation()
}

fn hashes(rows: &mut Vec<Row>) {
    let kinds = [("SHAKE256, 32,768 bytes in, 32 out", 32_768, 32), ("SHAKE256, 34 bytes in, 13,056 out", 34, 13_056)];
    for (what, input, output) in kinds {
        progress(what);
        let message = stream(b"message", input);
        let outs = RefCell::new([vec![0; output], vec![0; output]]);
        let mut openssl = OpenSsl::new();
        let found = medians(
            501,
            1,
            &mut [
                Box::new(|_| shake256(black_box(&message), &mut outs.borrow_mut()[0])),
                Box::new(|_| openssl.shake256(black_box(&message), &mut outs.borrow_mut()[1])),
            ],
            || {
                let outs = outs.borrow();
                assert!(outs[0] == outs[1], "the hashes differ");
            },
        );
        rows.push(Row { what, ours: found[0], other: "OpenSSL", theirs: found[1], at_most: 1.2 });
    }
}

/// Answers the time of the dense product and of the one with a challenge.
fn products(rows: &mut Vec<Row>) -> (f64, f64) {
    let (a, b) = (element(b"a"), element(b"b"));
    let mut challenge = vec![0; N];
    second::sampling::sample_challenge(&stream(b"c", CHALLENGE_STREAM), &mut challenge).expect("a challenge");
    let mut ours = [0.0; 2];
    let kinds = [("product, dense", &a, 1, 1.2), ("product, 25 nonzero in the first", &challenge, 10, 1.2)];
    for (index, (what, first, batch, at_most)) in kinds.into_iter().enumerate() {
        progress(what);
        let outs = RefCell::new([[0i32; N]; 3]);
        let times = |index: usize, product: Product| -> Call {
            let (outs, first, second) = (&outs, first.as_ptr(), b.as_ptr());
            Box::new(move |_| {
                let out = &mut outs.borrow_mut()[index];
                unsafe { product(black_box(first), N, black_box(second), N, out.as_mut_ptr(), N) };
            })
        };
        let mut calls = [times(0, ncc_product), times(1, plain_product), times(2, plain_product_by_four)];
        let found = medians(201, batch, &mut calls, || {
            let outs = outs.borrow();
            assert!(outs[0] == outs[1] && outs[0] == outs[2], "the products differ");
        });
        let (other, theirs) = faster(["C, row by row", "C, four rows at a time"], [found[1], found[2]]);
        ours[index] = found[0];
        rows.push(Row { what, ours: found[0], other, theirs, at_most });
    }
    (ours[0], ours[1])
}

fn into_numbers(rows: &mut Vec<Row>, what: &'static str, input: &[u8], ours: IntoNumbers, theirs: IntoNumbers) {
    progress(what);
    let outs = RefCell::new([[0i32; N]; 2]);
    let times = |index: usize, call: IntoNumbers| -> Call {
        let outs = &outs;
        Box::new(move |_| {
            let out = &mut outs.borrow_mut()[index];
            let answer = unsafe { call(black_box(input.as_ptr()), input.len(), out.as_mut_ptr(), N) };
            assert!(answer == 0, "a call was refused");
        })
    };
    let found = medians(501, 20, &mut [times(0, ours), times(1, theirs)], || {
        let outs = outs.borrow();
        assert!(outs[0] == outs[1], "the elements differ");
    });
    rows.push(Row { what, ours: found[0], other: "C", theirs: found[1], at_most: 1.5 });
}

fn packing(rows: &mut Vec<Row>) {
    progress("pack z");
    let z: Vec<i32> = element(b"z").iter().map(|value| value % 524_187 - 262_093).collect();
    let outs = RefCell::new([[0u8; Z_BYTES]; 2]);
    let times = |index: usize, call: IntoBytes| -> Call {
        let (outs, z) = (&outs, &z);
        Box::new(move |_| {
            let out = &mut outs.borrow_mut()[index];
            let answer = unsafe { call(black_box(z.as_ptr()), N, out.as_mut_ptr(), Z_BYTES) };
            assert!(answer == 0, "a call was refused");
        })
    };
    let found = medians(501, 20, &mut [times(0, ncc_pack_z), times(1, plain_pack_z)], || {
        let outs = outs.borrow();
        assert!(outs[0] == outs[1], "the packed elements differ");
    });
    rows.push(Row { what: "pack z", ours: found[0], other: "C", theirs: found[1], at_most: 1.5 });
    let packed = outs.into_inner()[0];
    into_numbers(rows, "unpack z", &packed, ncc_unpack_z, plain_unpack_z);
}

fn samplers(rows: &mut Vec<Row>) {
    into_numbers(rows, "sample a", &stream(b"a", A_STREAM), ncc_sample_a, plain_sample_a);
    into_numbers(rows, "sample s", &stream(b"s", S_STREAM), ncc_sample_s, plain_sample_s);
    let challenge = stream(b"c", CHALLENGE_STREAM);
    into_numbers(rows, "sample a challenge", &challenge, ncc_sample_challenge, plain_sample_challenge);
}

struct Keys {
    public: [u8; PUBLIC_KEY],
    secret: [u8; SECRET_KEY],
}

fn keys(rows: &mut Vec<Row>) -> Keys {
    progress("make_keys");
    let (zeta, zeta_prime) = (stream(b"zeta", SEED), stream(b"zeta'", SEED));
    let made = RefCell::new([([0; PUBLIC_KEY], [0; SECRET_KEY]); 2]);
    let found = medians(
        201,
        1,
        &mut [
            Box::new(|_| {
                let (public, secret) = &mut made.borrow_mut()[0];
                assert_eq!(make_keys(black_box(&zeta), black_box(&zeta_prime), public, secret), 0);
            }),
            Box::new(|_| {
                let (public, secret) = &mut made.borrow_mut()[1];
                assert!(scheme::make_keys(black_box(&zeta), black_box(&zeta_prime), public, secret).is_ok());
            }),
        ],
        || {
            let made = made.borrow();
            assert!(made[0] == made[1], "the keys differ");
        },
    );
    rows.push(Row { what: "make_keys", ours: found[0], other: "second", theirs: found[1], at_most: 1.2 });
    let (public, secret) = made.into_inner()[0];
    Keys { public, secret }
}

/// What signing took in all, and how many tries.
struct Signing {
    ours: f64,
    theirs: f64,
    tries: u64,
}

fn signing(rows: &mut Vec<Row>, keys: &Keys) -> Signing {
    let messages: Vec<Vec<u8>> =
        (0..MESSAGES).map(|number| stream(&(number as u32).to_le_bytes(), MESSAGE_BYTES)).collect();
    let (mut ours, mut theirs) = ([0; SIGNATURE], [0; SIGNATURE]);
    let (mut per_try, mut per_try_theirs) = (Vec::new(), Vec::new());
    let mut all = Signing { ours: 0.0, theirs: 0.0, tries: 0 };
    for (number, message) in messages.iter().enumerate() {
        if number % 250 == 0 {
            progress(&format!("sign, message {number} of {MESSAGES}"));
        }
        let start = Instant::now();
        let answer = sign(black_box(&keys.secret), black_box(message), LIMIT_TOP, &mut ours);
        let spent = start.elapsed().as_secs_f64() * 1e9;
        let start = Instant::now();
        let other = scheme::sign(black_box(&keys.secret), black_box(message), LIMIT_TOP, &mut theirs);
        let other_spent = start.elapsed().as_secs_f64() * 1e9;
        let tries = answer >> 32;
        assert!(answer & 0xff == 0 && other.refusal.is_none() && tries == u64::from(other.tries), "signing differs");
        assert!(ours == theirs, "the signatures differ");
        per_try.push(spent / tries as f64);
        per_try_theirs.push(other_spent / tries as f64);
        all.ours += spent;
        all.theirs += other_spent;
        all.tries += tries;
    }
    let count = MESSAGES as f64;
    rows.push(Row {
        what: "sign, mean of 1,000 messages",
        ours: all.ours / count,
        other: "second",
        theirs: all.theirs / count,
        at_most: 1.2,
    });
    rows.push(Row {
        what: "sign, for each try",
        ours: rounds::median(per_try),
        other: "second",
        theirs: rounds::median(per_try_theirs),
        at_most: 1.2,
    });
    all
}

fn checking(rows: &mut Vec<Row>, keys: &Keys) {
    progress("check");
    let message = stream(b"checked", MESSAGE_BYTES);
    let mut signature = [0; SIGNATURE];
    assert_eq!(sign(&keys.secret, &message, LIMIT_TOP, &mut signature) & 0xff, 0);
    let found = medians(
        201,
        1,
        &mut [
            Box::new(|_| assert_eq!(check(black_box(&keys.public), black_box(&signature), black_box(&message)), 0)),
            Box::new(|_| {
                let answer = scheme::check(black_box(&keys.public), black_box(&signature), black_box(&message));
                assert!(answer.is_ok());
            }),
        ],
        || {},
    );
    rows.push(Row { what: "check", ours: found[0], other: "second", theirs: found[1], at_most: 1.2 });
}

fn main() -> ExitCode {
    if let Some(name) = native::emulator() {
        eprintln!("bench: {name} runs this program, and a time that an emulator took says nothing: no times");
        return ExitCode::from(1);
    }
    let mut rows = Vec::new();
    permutation(&mut rows);
    hashes(&mut rows);
    let (dense, sparse) = products(&mut rows);
    packing(&mut rows);
    samplers(&mut rows);
    let keys = keys(&mut rows);
    let signing = signing(&mut rows, &keys);
    checking(&mut rows, &keys);

    println!("Processor: {}. {}.", native::processor(), OpenSsl::version());
    println!();
    println!("| call | proved, ns | beside | its ns | ratio | at most |");
    println!("|---|---|---|---|---|---|");
    for row in &rows {
        row.print();
    }
    println!();
    println!("The product with 25 nonzero coefficients takes {:.3} of the dense one (at most 0.1).", sparse / dense);
    println!("Tries for each signature, mean of 1,000 messages: {:.3}.", signing.tries as f64 / MESSAGES as f64);
    ExitCode::SUCCESS
}
