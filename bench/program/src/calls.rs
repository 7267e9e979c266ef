//! What is timed: the archive, the plain C code, and OpenSSL's SHAKE256.

use std::ffi::{c_char, c_int, c_void, CStr};
use std::ptr::{null, null_mut};

pub type Product = unsafe extern "C" fn(*const i32, usize, *const i32, usize, *mut i32, usize) -> u64;
pub type IntoNumbers = unsafe extern "C" fn(*const u8, usize, *mut i32, usize) -> u64;
pub type IntoBytes = unsafe extern "C" fn(*const i32, usize, *mut u8, usize) -> u64;
pub type Permute = unsafe extern "C" fn(*mut [u64; 25]);

extern "C" {
    pub fn ncc_shake256(input: *const u8, input_len: usize, out: *mut u8, out_len: usize) -> u64;
    fn ncc_make_keys(
        zeta: *const u8,
        zeta_len: usize,
        zeta_prime: *const u8,
        zeta_prime_len: usize,
        public_key: *mut u8,
        public_key_len: usize,
        secret_key: *mut u8,
        secret_key_len: usize,
    ) -> u64;
    fn ncc_sign(
        secret_key: *const u8,
        secret_key_len: usize,
        message: *const u8,
        message_len: usize,
        limit: u32,
        signature: *mut u8,
        signature_len: usize,
    ) -> u64;
    fn ncc_check(
        public_key: *const u8,
        public_key_len: usize,
        signature: *const u8,
        signature_len: usize,
        message: *const u8,
        message_len: usize,
    ) -> u64;
    pub fn ncc_product(f: *const i32, f_len: usize, s: *const i32, s_len: usize, out: *mut i32, out_len: usize) -> u64;
    pub fn ncc_sample_a(stream: *const u8, stream_len: usize, out: *mut i32, out_len: usize) -> u64;
    pub fn ncc_sample_s(stream: *const u8, stream_len: usize, out: *mut i32, out_len: usize) -> u64;
    pub fn ncc_sample_challenge(stream: *const u8, stream_len: usize, out: *mut i32, out_len: usize) -> u64;
    pub fn ncc_pack_z(values: *const i32, values_len: usize, out: *mut u8, out_len: usize) -> u64;
    pub fn ncc_unpack_z(packed: *const u8, packed_len: usize, out: *mut i32, out_len: usize) -> u64;

    pub fn keccak_unrolled(state: *mut [u64; 25]);
    pub fn keccak_compact(state: *mut [u64; 25]);
    pub fn plain_product(
        f: *const i32,
        f_len: usize,
        s: *const i32,
        s_len: usize,
        out: *mut i32,
        out_len: usize,
    ) -> u64;
    pub fn plain_product_by_four(
        f: *const i32,
        f_len: usize,
        s: *const i32,
        s_len: usize,
        out: *mut i32,
        out_len: usize,
    ) -> u64;
    pub fn plain_sample_a(stream: *const u8, stream_len: usize, out: *mut i32, out_len: usize) -> u64;
    pub fn plain_sample_s(stream: *const u8, stream_len: usize, out: *mut i32, out_len: usize) -> u64;
    pub fn plain_sample_challenge(stream: *const u8, stream_len: usize, out: *mut i32, out_len: usize) -> u64;
    pub fn plain_pack_z(values: *const i32, values_len: usize, out: *mut u8, out_len: usize) -> u64;
    pub fn plain_unpack_z(packed: *const u8, packed_len: usize, out: *mut i32, out_len: usize) -> u64;

    fn EVP_MD_CTX_new() -> *mut c_void;
    fn EVP_MD_fetch(library: *mut c_void, name: *const c_char, properties: *const c_char) -> *mut c_void;
    fn EVP_DigestInit_ex(context: *mut c_void, digest: *const c_void, engine: *mut c_void) -> c_int;
    fn EVP_DigestUpdate(context: *mut c_void, data: *const c_void, length: usize) -> c_int;
    fn EVP_DigestFinalXOF(context: *mut c_void, out: *mut u8, length: usize) -> c_int;
    fn OpenSSL_version(which: c_int) -> *const c_char;
}

#[cfg(permutation)]
extern "C" {
    /// The permutation's own symbol, which bench/run makes global: the result, then the state.
    fn proved_permute(out: *mut [u64; 25], state: *const [u64; 25]);
}

/// The archive's permutation, in place, if the archive has one of its own.
pub fn permutation() -> Option<Permute> {
    #[cfg(permutation)]
    {
        // The result must not overlap the state, so two permutations go there and back.
        unsafe extern "C" fn twice(state: *mut [u64; 25]) {
            let mut other = [0; 25];
            proved_permute(&mut other, state);
            proved_permute(state, &other);
        }
        Some(twice)
    }
    #[cfg(not(permutation))]
    None
}

pub fn shake256(input: &[u8], out: &mut [u8]) {
    unsafe { ncc_shake256(input.as_ptr(), input.len(), out.as_mut_ptr(), out.len()) };
}

pub fn make_keys(zeta: &[u8], zeta_prime: &[u8], public: &mut [u8], secret: &mut [u8]) -> u64 {
    unsafe {
        ncc_make_keys(
            zeta.as_ptr(),
            zeta.len(),
            zeta_prime.as_ptr(),
            zeta_prime.len(),
            public.as_mut_ptr(),
            public.len(),
            secret.as_mut_ptr(),
            secret.len(),
        )
    }
}

pub fn sign(secret: &[u8], message: &[u8], limit: u32, signature: &mut [u8]) -> u64 {
    unsafe {
        ncc_sign(
            secret.as_ptr(),
            secret.len(),
            message.as_ptr(),
            message.len(),
            limit,
            signature.as_mut_ptr(),
            signature.len(),
        )
    }
}

pub fn check(public: &[u8], signature: &[u8], message: &[u8]) -> u64 {
    unsafe {
        ncc_check(public.as_ptr(), public.len(), signature.as_ptr(), signature.len(), message.as_ptr(), message.len())
    }
}

/// OpenSSL's SHAKE256, fetched once, as a program that cares for its speed does.
pub struct OpenSsl {
    context: *mut c_void,
    digest: *const c_void,
}

impl OpenSsl {
    pub fn new() -> OpenSsl {
        let (context, digest) = unsafe { (EVP_MD_CTX_new(), EVP_MD_fetch(null_mut(), c"SHAKE256".as_ptr(), null())) };
        assert!(!context.is_null() && !digest.is_null(), "OpenSSL has no SHAKE256");
        OpenSsl { context, digest }
    }

    pub fn shake256(&mut self, input: &[u8], out: &mut [u8]) {
        let done = unsafe {
            EVP_DigestInit_ex(self.context, self.digest, null_mut()) == 1
                && EVP_DigestUpdate(self.context, input.as_ptr().cast(), input.len()) == 1
                && EVP_DigestFinalXOF(self.context, out.as_mut_ptr(), out.len()) == 1
        };
        assert!(done, "OpenSSL failed");
    }

    pub fn version() -> String {
        unsafe { CStr::from_ptr(OpenSSL_version(0)) }.to_string_lossy().into_owned()
    }
}
