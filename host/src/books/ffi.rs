//! The C functions of exercise books, as they are: a buffer is a pointer and then its length; the answer is the page's number.

unsafe extern "C" {
    pub fn snova_book_write(
        exercises: *const u16,
        exercises_len: usize,
        kinds: *const u8,
        kinds_len: usize,
        sizes: *const usize,
        sizes_len: usize,
        payload: *const u8,
        payload_len: usize,
        book: *mut u8,
        book_len: usize,
    ) -> u32;

    pub fn snova_book_read(book: *const u8, book_len: usize) -> u32;

    pub fn snova_book_field(
        book: *const u8,
        book_len: usize,
        block: usize,
        numbers: *mut u64,
        numbers_len: usize,
    ) -> u32;

    pub fn snova_book_payload(
        book: *const u8,
        book_len: usize,
        block: usize,
        output: *mut u8,
        output_len: usize,
    ) -> u32;

    pub fn snova_book_salvage(
        book: *const u8,
        book_len: usize,
        output: *mut u8,
        output_len: usize,
        list: *mut u8,
        list_len: usize,
        kept: *mut usize,
    ) -> u32;
}
