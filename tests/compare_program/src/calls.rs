//! One call of the archive beside the same call of the second program.
//!
//! Every buffer of the archive lies inside a larger one, and all that lies around it is compared as well: a call may
//! write its outputs and nothing else. Outputs are filled before the call, so that a refused call must leave them so.

use second::refusal::Refusal;

use crate::answer;
use crate::archive::{self, IntoBytes, IntoNumbers};
use crate::numbers::Numbers;
use crate::report::{Report, Shown};

/// A number that a buffer can hold.
pub trait Cell: Copy + PartialEq + std::fmt::Display {
    fn any(numbers: &mut Numbers) -> Self;
}

impl Cell for u8 {
    fn any(numbers: &mut Numbers) -> u8 {
        numbers.next() as u8
    }
}

impl Cell for i32 {
    fn any(numbers: &mut Numbers) -> i32 {
        numbers.any()
    }
}

/// How many cells lie before and behind a buffer, at least.
const AROUND: usize = 24;

/// A buffer inside a larger one.
#[derive(Clone)]
struct Lent<T> {
    whole: Vec<T>,
    start: usize,
    length: usize,
}

impl<T: Cell> Lent<T> {
    /// A buffer that holds anything. Its start varies, so that no alignment beyond the type's own is met always.
    fn any(length: usize, numbers: &mut Numbers) -> Lent<T> {
        let start = AROUND + numbers.below(8);
        // The cells repeat, which costs less than a number for each and still shows every change.
        let tile: Vec<T> = (0..61).map(|_| T::any(numbers)).collect();
        let whole = (0..start + length + AROUND).map(|index| tile[index % tile.len()]).collect();
        Lent { whole, start, length }
    }

    fn of(content: &[T], numbers: &mut Numbers) -> Lent<T> {
        let mut lent = Lent::any(content.len(), numbers);
        lent.inner_mut().copy_from_slice(content);
        lent
    }

    fn inner(&self) -> &[T] {
        &self.whole[self.start..self.start + self.length]
    }

    fn inner_mut(&mut self) -> &mut [T] {
        &mut self.whole[self.start..self.start + self.length]
    }

    fn pointer(&self) -> *const T {
        self.inner().as_ptr()
    }

    fn pointer_mut(&mut self) -> *mut T {
        self.inner_mut().as_mut_ptr()
    }
}

/// An input of the archive: a copy, and what it must still be after the call.
struct In<'a, T> {
    name: &'static str,
    given: &'a [T],
    lent: Lent<T>,
    before: Lent<T>,
}

impl<'a, T: Cell> In<'a, T> {
    fn new(name: &'static str, given: &'a [T], numbers: &mut Numbers) -> In<'a, T> {
        let lent = Lent::of(given, numbers);
        In { name, given, before: lent.clone(), lent }
    }

    fn faults(&self, lines: &mut Vec<String>) {
        if self.lent.whole != self.before.whole {
            lines.push(format!("the archive wrote to its input {}", self.name));
        }
    }
}

/// An output, three times: as it was, of the archive, of the second program.
struct Out<T> {
    name: &'static str,
    before: Lent<T>,
    ours: Lent<T>,
    theirs: Lent<T>,
}

impl<T: Cell> Out<T> {
    fn new(name: &'static str, length: usize, numbers: &mut Numbers) -> Out<T> {
        let before = Lent::any(length, numbers);
        Out { name, ours: before.clone(), theirs: before.clone(), before }
    }

    fn faults(&self, answer: u64, lines: &mut Vec<String>) {
        let (start, end) = (self.ours.start, self.ours.start + self.ours.length);
        if self.ours.whole[..start] != self.before.whole[..start] || self.ours.whole[end..] != self.before.whole[end..]
        {
            lines.push(format!("the archive wrote outside {}", self.name));
        }
        if answer::number(answer) != 0 && self.ours.inner() != self.before.inner() {
            lines.push(format!("the archive refused and changed {}", self.name));
        }
        let (ours, theirs) = (self.ours.inner(), self.theirs.inner());
        let unequal: Vec<usize> = (0..ours.len()).filter(|&index| ours[index] != theirs[index]).collect();
        if let Some(&first) = unequal.first() {
            lines.push(format!(
                "{} differs at {} of {} places, first at {first}: archive {}, second {}",
                self.name,
                unequal.len(),
                ours.len(),
                ours[first],
                theirs[first]
            ));
        }
    }
}

/// The calls, the numbers that fill their buffers, and the report.
pub struct Calls {
    pub report: Report,
    pub numbers: Numbers,
    seed: u64,
}

impl Calls {
    pub fn new(seed: u64) -> Calls {
        Calls { report: Report::new(), numbers: Numbers::new(seed, ""), seed }
    }

    /// Starts a part with numbers of its own.
    pub fn part(&mut self, name: &'static str) {
        self.numbers = Numbers::new(self.seed, name);
        self.report.part(name);
    }

    fn finish(&mut self, function: &'static str, ours: u64, theirs: u64, mut lines: Vec<String>, inputs: &[Shown]) {
        self.report.answered(function, ours);
        if ours != theirs {
            lines.insert(0, format!("archive: {}", answer::shown(ours)));
            lines.insert(1, format!("second:  {}", answer::shown(theirs)));
        }
        if !lines.is_empty() {
            self.report.differs(function, inputs, &lines);
        }
    }

    /// A rule of the documents that an answer must meet whatever the second program says.
    pub fn must(&mut self, what: &str, answer: u64, number: u64) {
        if answer::number(answer) != number {
            let line = format!("{what}: must be number {number}, and is {}", answer::shown(answer));
            self.report.differs("a rule of document 01", &[], &[line]);
        }
    }

    pub fn shake256(&mut self, input: &[u8], length: usize) -> Vec<u8> {
        let input = In::new("in", input, &mut self.numbers);
        let mut out = Out::new("out", length, &mut self.numbers);
        let ours =
            unsafe { archive::ncc_shake256(input.lent.pointer(), input.given.len(), out.ours.pointer_mut(), length) };
        second::shake::shake256(input.given, out.theirs.inner_mut());
        let mut lines = Vec::new();
        input.faults(&mut lines);
        out.faults(ours, &mut lines);
        let shown = [Shown::Bytes("in", input.given), Shown::Number("out_len", length as i64)];
        self.finish("ncc_shake256", ours, 0, lines, &shown);
        out.ours.inner().to_vec()
    }

    /// Answers the keys that the archive made, or what their buffers held.
    pub fn make_keys(&mut self, zeta: &[u8], zeta_prime: &[u8], lengths: [usize; 2]) -> (u64, Vec<u8>, Vec<u8>) {
        let zeta = In::new("zeta", zeta, &mut self.numbers);
        let zeta_prime = In::new("zeta_prime", zeta_prime, &mut self.numbers);
        let mut public = Out::new("public_key", lengths[0], &mut self.numbers);
        let mut secret = Out::new("secret_key", lengths[1], &mut self.numbers);
        let ours = unsafe {
            archive::ncc_make_keys(
                zeta.lent.pointer(),
                zeta.given.len(),
                zeta_prime.lent.pointer(),
                zeta_prime.given.len(),
                public.ours.pointer_mut(),
                lengths[0],
                secret.ours.pointer_mut(),
                lengths[1],
            )
        };
        let theirs = answer::of(second::scheme::make_keys(
            zeta.given,
            zeta_prime.given,
            public.theirs.inner_mut(),
            secret.theirs.inner_mut(),
        ));
        let mut lines = Vec::new();
        zeta.faults(&mut lines);
        zeta_prime.faults(&mut lines);
        public.faults(ours, &mut lines);
        secret.faults(ours, &mut lines);
        let shown = [
            Shown::Bytes("zeta", zeta.given),
            Shown::Bytes("zeta_prime", zeta_prime.given),
            Shown::Number("public_key_len", lengths[0] as i64),
            Shown::Number("secret_key_len", lengths[1] as i64),
        ];
        self.finish("ncc_make_keys", ours, theirs, lines, &shown);
        (ours, public.ours.inner().to_vec(), secret.ours.inner().to_vec())
    }

    /// Answers the signature that the archive made, or what its buffer held.
    pub fn sign(&mut self, secret: &[u8], message: &[u8], limit: u32, length: usize) -> (u64, Vec<u8>) {
        let secret = In::new("secret_key", secret, &mut self.numbers);
        let message = In::new("message", message, &mut self.numbers);
        let mut signature = Out::new("signature", length, &mut self.numbers);
        let ours = unsafe {
            archive::ncc_sign(
                secret.lent.pointer(),
                secret.given.len(),
                message.lent.pointer(),
                message.given.len(),
                limit,
                signature.ours.pointer_mut(),
                length,
            )
        };
        let theirs =
            answer::of_signing(second::scheme::sign(secret.given, message.given, limit, signature.theirs.inner_mut()));
        let mut lines = Vec::new();
        secret.faults(&mut lines);
        message.faults(&mut lines);
        signature.faults(ours, &mut lines);
        let shown = [
            Shown::Bytes("secret_key", secret.given),
            Shown::Bytes("message", message.given),
            Shown::Number("limit", i64::from(limit)),
            Shown::Number("signature_len", length as i64),
        ];
        self.finish("ncc_sign", ours, theirs, lines, &shown);
        (ours, signature.ours.inner().to_vec())
    }

    pub fn check(&mut self, public: &[u8], signature: &[u8], message: &[u8]) -> u64 {
        let public = In::new("public_key", public, &mut self.numbers);
        let signature = In::new("signature", signature, &mut self.numbers);
        let message = In::new("message", message, &mut self.numbers);
        let ours = unsafe {
            archive::ncc_check(
                public.lent.pointer(),
                public.given.len(),
                signature.lent.pointer(),
                signature.given.len(),
                message.lent.pointer(),
                message.given.len(),
            )
        };
        let theirs = answer::of(second::scheme::check(public.given, signature.given, message.given));
        let mut lines = Vec::new();
        public.faults(&mut lines);
        signature.faults(&mut lines);
        message.faults(&mut lines);
        let shown = [
            Shown::Bytes("public_key", public.given),
            Shown::Bytes("signature", signature.given),
            Shown::Bytes("message", message.given),
        ];
        self.finish("ncc_check", ours, theirs, lines, &shown);
        ours
    }

    pub fn product(&mut self, first: &[i32], other: &[i32], length: usize) -> Vec<i32> {
        let first = In::new("first", first, &mut self.numbers);
        let other = In::new("second", other, &mut self.numbers);
        let mut out = Out::new("out", length, &mut self.numbers);
        let ours = unsafe {
            archive::ncc_product(
                first.lent.pointer(),
                first.given.len(),
                other.lent.pointer(),
                other.given.len(),
                out.ours.pointer_mut(),
                length,
            )
        };
        let theirs = answer::of(second::ring::product(first.given, other.given, out.theirs.inner_mut()));
        let mut lines = Vec::new();
        first.faults(&mut lines);
        other.faults(&mut lines);
        out.faults(ours, &mut lines);
        let shown = [
            Shown::Numbers("first", first.given),
            Shown::Numbers("second", other.given),
            Shown::Number("out_len", length as i64),
        ];
        self.finish("ncc_product", ours, theirs, lines, &shown);
        out.ours.inner().to_vec()
    }

    pub fn use_hint(&mut self, hint: u32, r: i32) -> u64 {
        let before = self.numbers.next() as u32;
        let mut high = before;
        let ours = unsafe { archive::ncc_use_hint(hint, r, &mut high) };
        let (theirs, expected) = match second::rounding::use_hint(hint, r) {
            Ok(value) => (0, value),
            Err(refusal) => (answer::of(Err(refusal)), before),
        };
        self.report.answered("ncc_use_hint", ours);
        if ours != theirs || high != expected {
            let lines = [
                format!("archive: {}, *high {high}", answer::shown(ours)),
                format!("second:  {}, *high {expected}", answer::shown(theirs)),
            ];
            let shown = [
                Shown::Number("hint", i64::from(hint)),
                Shown::Number("r", i64::from(r)),
                Shown::Number("*high before", i64::from(before)),
            ];
            self.report.differs("ncc_use_hint", &shown, &lines);
        }
        ours
    }

    /// The functions of one number that cannot refuse, and both hints, at one r.
    pub fn round(&mut self, r: i32) {
        let (high, low) = second::rounding::decompose(r);
        let (power2_high, power2_low) = second::rounding::power2round(r);
        let (ours, theirs) = unsafe {
            (
                [
                    i64::from(archive::ncc_high_bits(r)),
                    i64::from(archive::ncc_low_bits(r)),
                    i64::from(archive::ncc_power2_high(r)),
                    i64::from(archive::ncc_power2_low(r)),
                ],
                [i64::from(high), i64::from(low), i64::from(power2_high), i64::from(power2_low)],
            )
        };
        let names = ["ncc_high_bits", "ncc_low_bits", "ncc_power2_high", "ncc_power2_low"];
        for (index, name) in names.into_iter().enumerate() {
            self.report.plain();
            if ours[index] != theirs[index] {
                let lines = [format!("archive: {}", ours[index]), format!("second:  {}", theirs[index])];
                self.report.differs(name, &[Shown::Number("r", i64::from(r))], &lines);
            }
        }
        self.use_hint(0, r);
        self.use_hint(1, r);
    }

    pub fn make_hint(&mut self, z: i32, r: i32) {
        let ours = unsafe { archive::ncc_make_hint(z, r) };
        let theirs = second::rounding::make_hint(z, r);
        self.report.plain();
        if ours != theirs {
            let shown = [Shown::Number("z", i64::from(z)), Shown::Number("r", i64::from(r))];
            let lines = [format!("archive: {ours}"), format!("second:  {theirs}")];
            self.report.differs("ncc_make_hint", &shown, &lines);
        }
    }

    pub fn into_numbers(&mut self, call: &ToNumbers, input: &[u8], length: usize) -> (u64, Vec<i32>) {
        let input = In::new(call.input, input, &mut self.numbers);
        let mut out = Out::new("out", length, &mut self.numbers);
        let ours = unsafe { (call.ours)(input.lent.pointer(), input.given.len(), out.ours.pointer_mut(), length) };
        let theirs = answer::of((call.theirs)(input.given, out.theirs.inner_mut()));
        let mut lines = Vec::new();
        input.faults(&mut lines);
        out.faults(ours, &mut lines);
        let shown = [Shown::Bytes(call.input, input.given), Shown::Number("out_len", length as i64)];
        self.finish(call.name, ours, theirs, lines, &shown);
        (ours, out.ours.inner().to_vec())
    }

    pub fn into_bytes(&mut self, call: &ToBytes, values: &[i32], length: usize) -> (u64, Vec<u8>) {
        let values = In::new("values", values, &mut self.numbers);
        let mut out = Out::new("out", length, &mut self.numbers);
        let ours = unsafe { (call.ours)(values.lent.pointer(), values.given.len(), out.ours.pointer_mut(), length) };
        let theirs = answer::of((call.theirs)(values.given, out.theirs.inner_mut()));
        let mut lines = Vec::new();
        values.faults(&mut lines);
        out.faults(ours, &mut lines);
        let shown = [Shown::Numbers("values", values.given), Shown::Number("out_len", length as i64)];
        self.finish(call.name, ours, theirs, lines, &shown);
        (ours, out.ours.inner().to_vec())
    }
}

/// A sampler or an unpacking function, of both.
pub struct ToNumbers {
    pub name: &'static str,
    pub input: &'static str,
    pub ours: IntoNumbers,
    pub theirs: fn(&[u8], &mut [i32]) -> Result<(), Refusal>,
}

/// A packing function, of both.
pub struct ToBytes {
    pub name: &'static str,
    pub ours: IntoBytes,
    pub theirs: fn(&[i32], &mut [u8]) -> Result<(), Refusal>,
}
