//! The vector file that the gate's test program reads, over the archive.

use second::cases;
use second::replay::{replay, Calls as Replayed};
use second::vectors::Answer;

use crate::answer::parts;
use crate::archive::{ncc_check, ncc_make_keys, ncc_sign};
use crate::calls::Calls;

struct Archive<'a>(&'a mut Calls);

impl Archive<'_> {
    fn answered(&mut self, function: &'static str, answer: u64) -> Answer {
        self.0.report.answered(function, answer);
        parts(answer)
    }
}

impl Replayed for Archive<'_> {
    fn make_keys(&mut self, zeta: &[u8], zeta_prime: &[u8], public: &mut [u8], secret: &mut [u8]) -> Answer {
        let answer = unsafe {
            ncc_make_keys(
                zeta.as_ptr(),
                zeta.len(),
                zeta_prime.as_ptr(),
                zeta_prime.len(),
                public.as_mut_ptr(),
                public.len(),
                secret.as_mut_ptr(),
                secret.len(),
            )
        };
        self.answered("ncc_make_keys", answer)
    }

    fn sign(&mut self, secret: &[u8], message: &[u8], limit: u32, signature: &mut [u8]) -> Answer {
        let answer = unsafe {
            ncc_sign(
                secret.as_ptr(),
                secret.len(),
                message.as_ptr(),
                message.len(),
                limit,
                signature.as_mut_ptr(),
                signature.len(),
            )
        };
        self.answered("ncc_sign", answer)
    }

    fn check(&mut self, public: &[u8], signature: &[u8], message: &[u8]) -> Answer {
        let answer = unsafe {
            ncc_check(
                public.as_ptr(),
                public.len(),
                signature.as_ptr(),
                signature.len(),
                message.as_ptr(),
                message.len(),
            )
        };
        self.answered("ncc_check", answer)
    }
}

pub fn compare(calls: &mut Calls) {
    calls.part("the vector file");
    let (file, _) = cases::file();
    if let Err(why) = replay(&file, &mut Archive(calls)) {
        calls.report.differs("the vector file", &[], &[why]);
    }
    calls.report.part_done();
}
