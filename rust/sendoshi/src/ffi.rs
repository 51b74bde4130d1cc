//! The library's functions as version 5 of `include/sendoshi.h` declares them. A slice is passed as a pointer and a length, the 32
//! start values and the three numbers of a note as one pointer each.
//!
//! Each answers code × 2^32 + place. They have no condition on numbers or contents. What they cannot test, and a caller must see
//! to, is that each pointer is good for its length, that of the start values for 32 of them and that of a note for three, and that a
//! buffer that is written overlaps no other.

extern "C" {
    pub fn sendoshi_read(
        file: *const u8,
        file_length: usize,
        starts: *mut [u32; 32],
        kinds: *mut u16,
        kinds_length: usize,
        transactions: *mut u16,
        transactions_length: usize,
        registers: *mut u16,
        registers_length: usize,
        values: *mut u32,
        values_length: usize,
        threads: *mut u16,
        threads_length: usize,
    ) -> u64;

    pub fn sendoshi_next_note(file: *const u8, file_length: usize, from: u32, note: *mut [u32; 3]) -> u64;

    pub fn sendoshi_write(
        edition: u16,
        starts: *const [u32; 32],
        kinds: *const u16,
        kinds_length: usize,
        transactions: *const u16,
        transactions_length: usize,
        registers: *const u16,
        registers_length: usize,
        values: *const u32,
        values_length: usize,
        threads: *const u16,
        threads_length: usize,
        count: u32,
        output: *mut u8,
        output_length: usize,
    ) -> u64;

    pub fn sendoshi_find(
        edition: u16,
        starts: *const [u32; 32],
        kinds: *const u16,
        kinds_length: usize,
        transactions: *const u16,
        transactions_length: usize,
        registers: *const u16,
        registers_length: usize,
        values: *const u32,
        values_length: usize,
        threads: *const u16,
        threads_length: usize,
        count: u32,
        prefix: u32,
        output: *mut u8,
        output_length: usize,
    ) -> u64;

    pub fn sendoshi_scan(
        edition: u16,
        starts: *const [u32; 32],
        kinds: *const u16,
        kinds_length: usize,
        transactions: *const u16,
        transactions_length: usize,
        registers: *const u16,
        registers_length: usize,
        values: *const u32,
        values_length: usize,
        threads: *const u16,
        threads_length: usize,
        count: u32,
    ) -> u64;

    pub fn sendoshi_check(
        edition: u16,
        starts: *const [u32; 32],
        kinds: *const u16,
        kinds_length: usize,
        transactions: *const u16,
        transactions_length: usize,
        registers: *const u16,
        registers_length: usize,
        values: *const u32,
        values_length: usize,
        threads: *const u16,
        threads_length: usize,
        count: u32,
        file: *const u8,
        file_length: usize,
    ) -> u64;

    pub fn sendoshi_straighten(
        edition: u16,
        starts: *const [u32; 32],
        kinds: *const u16,
        kinds_length: usize,
        transactions: *const u16,
        transactions_length: usize,
        registers: *const u16,
        registers_length: usize,
        values: *const u32,
        values_length: usize,
        threads: *const u16,
        threads_length: usize,
        count: u32,
        file: *const u8,
        file_length: usize,
        output: *mut u8,
        output_length: usize,
        moved: *mut u32,
        moved_length: usize,
    ) -> u64;

    pub fn sendoshi_transactions(
        edition: u16,
        starts: *const [u32; 32],
        kinds: *const u16,
        kinds_length: usize,
        transactions: *const u16,
        transactions_length: usize,
        registers: *const u16,
        registers_length: usize,
        values: *const u32,
        values_length: usize,
        threads: *const u16,
        threads_length: usize,
        count: u32,
    ) -> u64;

    pub fn sendoshi_store_reads(
        edition: u16,
        starts: *const [u32; 32],
        kinds: *const u16,
        kinds_length: usize,
        transactions: *const u16,
        transactions_length: usize,
        registers: *const u16,
        registers_length: usize,
        values: *const u32,
        values_length: usize,
        threads: *const u16,
        threads_length: usize,
        count: u32,
    ) -> u64;

    pub fn sendoshi_tally(
        edition: u16,
        starts: *const [u32; 32],
        kinds: *const u16,
        kinds_length: usize,
        transactions: *const u16,
        transactions_length: usize,
        registers: *const u16,
        registers_length: usize,
        values: *const u32,
        values_length: usize,
        threads: *const u16,
        threads_length: usize,
        count: u32,
    ) -> u64;
}
