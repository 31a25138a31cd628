//! The calls as the archives have them and the C headers declare them: a
//! slice is a pointer and a length, in elements. For callers who need what
//! the safe calls keep to themselves, such as `written` under a refusal.
//!
//! # Safety
//!
//! Each pointer is to as many elements as its length says, and may be any,
//! null too, where that is 0; `written` is never null. Pointers to numbers of
//! more than 8 bits are aligned. Nothing lent to one call overlaps anything
//! else lent to it.

extern "C" {
    pub fn keeper_check_table(table: *const u8, length: usize) -> u32;
    pub fn keeper_recovery_line(
        table: *const u8,
        length: usize,
        answer: *mut u8,
        room: usize,
        written: *mut usize,
    ) -> u32;
    pub fn keeper_line_of_set(
        table: *const u8,
        length: usize,
        set: u32,
        answer: *mut u8,
        room: usize,
        written: *mut usize,
    ) -> u32;
    pub fn keeper_lines_of_sets(
        table: *const u8,
        length: usize,
        sets: *const u32,
        sets_length: usize,
        scratch: *mut u16,
        numbers: usize,
        answer: *mut u8,
        room: usize,
        written: *mut usize,
    ) -> u32;
    pub fn keeper_line_under(
        table: *const u8,
        length: usize,
        ceilings: *const u16,
        ceilings_length: usize,
        answer: *mut u8,
        room: usize,
        written: *mut usize,
    ) -> u32;
    pub fn keeper_marked_line(
        table: *const u8,
        length: usize,
        ceilings: *const u16,
        ceilings_length: usize,
        marks: *mut u8,
        marks_length: usize,
        answer: *mut u8,
        room: usize,
        written: *mut usize,
    ) -> u32;
    pub fn keeper_stand_together(
        table: *const u8,
        length: usize,
        processes: *const u16,
        processes_length: usize,
        states: *const u16,
        states_length: usize,
        answer: *mut u8,
        room: usize,
        written: *mut usize,
    ) -> u32;
    pub fn keeper_send(
        table: *const u8,
        length: usize,
        from: u16,
        to: u16,
        answer: *mut u8,
        room: usize,
        written: *mut usize,
    ) -> u32;
    pub fn keeper_save(
        table: *const u8,
        length: usize,
        process: u16,
        list: *const u16,
        list_length: usize,
        answer: *mut u8,
        room: usize,
        written: *mut usize,
    ) -> u32;
    pub fn keeper_receive(
        table: *const u8,
        length: usize,
        process: u16,
        list: *const u16,
        list_length: usize,
        answer: *mut u8,
        room: usize,
        written: *mut usize,
    ) -> u32;
    pub fn keeper_fall_back(
        table: *const u8,
        length: usize,
        answer: *mut u8,
        room: usize,
        written: *mut usize,
    ) -> u32;
    pub fn keeper_keep_sheet(
        table: *const u8,
        length: usize,
        scratch: *mut u16,
        numbers: usize,
        answer: *mut u8,
        room: usize,
        written: *mut usize,
    ) -> u32;
}

#[cfg(feature = "listing_text")]
extern "C" {
    pub fn keeper_listing(
        table: *const u8,
        length: usize,
        text: *mut u8,
        room: usize,
        written: *mut usize,
    ) -> u32;
}

#[cfg(feature = "run_table")]
extern "C" {
    pub fn run_table_check(table: *const u8, length: usize) -> u32;
    pub fn run_table_processes(table: *const u8, length: usize) -> u16;
    pub fn run_table_messages(table: *const u8, length: usize) -> u16;
    pub fn run_table_count(table: *const u8, length: usize, p: usize) -> u16;
    pub fn run_table_sender(table: *const u8, length: usize, k: usize) -> u16;
    pub fn run_table_sent(table: *const u8, length: usize, k: usize) -> u16;
    pub fn run_table_receiver(table: *const u8, length: usize, k: usize) -> u16;
    pub fn run_table_received(table: *const u8, length: usize, k: usize) -> u16;
}
