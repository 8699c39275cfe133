//! The proved library's C interface, as it is: only `library.rs` calls it.
//!
//! A buffer is a pointer and then its length. The answer is page 01's number.
#![allow(unsafe_code)]

unsafe extern "C" {
    pub fn snova_public_bytes(v: usize, o: usize, l: usize) -> usize;
    pub fn snova_abq_bytes(v: usize, o: usize, l: usize) -> usize;
    pub fn snova_private_bytes(v: usize, o: usize, l: usize) -> usize;
    pub fn snova_vinegar_bytes(v: usize, o: usize, l: usize) -> usize;
    pub fn snova_target_bytes(v: usize, o: usize, l: usize) -> usize;
    pub fn snova_key_bytes(v: usize, o: usize, l: usize) -> usize;
    pub fn snova_signature_bytes(v: usize, o: usize, l: usize) -> usize;
    pub fn snova_work_bytes(v: usize, o: usize, l: usize) -> usize;

    pub fn snova_keygen(
        v: usize,
        o: usize,
        l: usize,
        public: *const u8,
        public_len: usize,
        private: *const u8,
        private_len: usize,
        key: *mut u8,
        key_len: usize,
    ) -> u32;

    pub fn snova_sign(
        v: usize,
        o: usize,
        l: usize,
        public: *const u8,
        public_len: usize,
        abq: *const u8,
        abq_len: usize,
        private: *const u8,
        private_len: usize,
        vinegar: *const u8,
        vinegar_len: usize,
        target: *const u8,
        target_len: usize,
        salt: *const u8,
        salt_len: usize,
        work: *mut u8,
        work_len: usize,
        signature: *mut u8,
        signature_len: usize,
    ) -> u32;

    pub fn snova_verify(
        v: usize,
        o: usize,
        l: usize,
        public: *const u8,
        public_len: usize,
        abq: *const u8,
        abq_len: usize,
        target: *const u8,
        target_len: usize,
        key: *const u8,
        key_len: usize,
        signature: *const u8,
        signature_len: usize,
    ) -> u32;

    pub fn snova_salt_status(
        v: usize,
        o: usize,
        l: usize,
        signature: *const u8,
        signature_len: usize,
    ) -> u32;

    pub fn snova_pack(
        elements: *const u8,
        elements_len: usize,
        bytes: *mut u8,
        bytes_len: usize,
    ) -> u32;

    pub fn snova_unpack(
        bytes: *const u8,
        bytes_len: usize,
        elements: *mut u8,
        elements_len: usize,
    ) -> u32;

    pub fn snova_decode_hex(
        digits: *const u8,
        digits_len: usize,
        bytes: *mut u8,
        bytes_len: usize,
    ) -> u32;

    pub fn snova_responses(file: *const u8, file_len: usize) -> u32;
}
