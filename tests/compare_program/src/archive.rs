//! The functions of the archive, as include/ncc_sign.h declares them.

/// Samplers and unpacking: bytes in, numbers out.
pub type IntoNumbers = unsafe extern "C" fn(*const u8, usize, *mut i32, usize) -> u64;

/// Packing: numbers in, bytes out.
pub type IntoBytes = unsafe extern "C" fn(*const i32, usize, *mut u8, usize) -> u64;

extern "C" {
    pub fn ncc_shake256(input: *const u8, input_len: usize, out: *mut u8, out_len: usize) -> u64;

    pub fn ncc_make_keys(
        zeta: *const u8,
        zeta_len: usize,
        zeta_prime: *const u8,
        zeta_prime_len: usize,
        public_key: *mut u8,
        public_key_len: usize,
        secret_key: *mut u8,
        secret_key_len: usize,
    ) -> u64;
    pub fn ncc_sign(
        secret_key: *const u8,
        secret_key_len: usize,
        message: *const u8,
        message_len: usize,
        limit: u32,
        signature: *mut u8,
        signature_len: usize,
    ) -> u64;
    pub fn ncc_check(
        public_key: *const u8,
        public_key_len: usize,
        signature: *const u8,
        signature_len: usize,
        message: *const u8,
        message_len: usize,
    ) -> u64;

    pub fn ncc_product(
        first: *const i32,
        first_len: usize,
        second: *const i32,
        second_len: usize,
        out: *mut i32,
        out_len: usize,
    ) -> u64;
    pub fn ncc_high_bits(r: i32) -> u32;
    pub fn ncc_low_bits(r: i32) -> i32;
    pub fn ncc_make_hint(z: i32, r: i32) -> u32;
    pub fn ncc_use_hint(hint: u32, r: i32, high: *mut u32) -> u64;
    pub fn ncc_power2_high(r: i32) -> u32;
    pub fn ncc_power2_low(r: i32) -> i32;

    pub fn ncc_sample_a(stream: *const u8, stream_len: usize, out: *mut i32, out_len: usize) -> u64;
    pub fn ncc_sample_s(stream: *const u8, stream_len: usize, out: *mut i32, out_len: usize) -> u64;
    pub fn ncc_sample_challenge(stream: *const u8, stream_len: usize, out: *mut i32, out_len: usize) -> u64;

    pub fn ncc_pack_t1(values: *const i32, values_len: usize, out: *mut u8, out_len: usize) -> u64;
    pub fn ncc_pack_t0(values: *const i32, values_len: usize, out: *mut u8, out_len: usize) -> u64;
    pub fn ncc_pack_s(values: *const i32, values_len: usize, out: *mut u8, out_len: usize) -> u64;
    pub fn ncc_pack_z(values: *const i32, values_len: usize, out: *mut u8, out_len: usize) -> u64;
    pub fn ncc_pack_w1(values: *const i32, values_len: usize, out: *mut u8, out_len: usize) -> u64;

    pub fn ncc_unpack_t1(packed: *const u8, packed_len: usize, out: *mut i32, out_len: usize) -> u64;
    pub fn ncc_unpack_t0(packed: *const u8, packed_len: usize, out: *mut i32, out_len: usize) -> u64;
    pub fn ncc_unpack_s(packed: *const u8, packed_len: usize, out: *mut i32, out_len: usize) -> u64;
    pub fn ncc_unpack_z(packed: *const u8, packed_len: usize, out: *mut i32, out_len: usize) -> u64;
    pub fn ncc_unpack_w1(packed: *const u8, packed_len: usize, out: *mut i32, out_len: usize) -> u64;
}
