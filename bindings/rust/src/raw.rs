//! The functions of libsogvect.a as they are, with slices as a pointer and a length. `include/sogvect.h` says what each does.
//!
//! Every pointer has to be aligned and valid for its length, not null even where the length is 0, and what is lent as `*mut` may overlap nothing else that is lent.

extern "C" {
    /// A fresh store on the lent memory.
    pub fn sogvect_make(
        arenas: usize,
        per: usize,
        pages: usize,
        records: usize,
        turn: usize,
        words: usize,
        tables: *mut u32,
        tables_len: usize,
        log: *const u8,
        log_len: usize,
        out: *const u32,
        out_len: usize,
    ) -> u32;

    /// The call of a letter, as its byte, and three numbers. A block in a result is two numbers of the result buffer, the block and its birth.
    pub fn sogvect_call(
        arenas: usize,
        per: usize,
        pages: usize,
        records: usize,
        turn: usize,
        words: usize,
        tables: *mut u32,
        tables_len: usize,
        log: *mut u8,
        log_len: usize,
        out: *mut u32,
        out_len: usize,
        letter: u32,
        x: u32,
        y: u32,
        z: u32,
        count: *mut usize,
    ) -> u32;

    /// The same of a letter that only looks, R, L or Q: tables and log are read and never written.
    pub fn sogvect_look(
        arenas: usize,
        per: usize,
        pages: usize,
        records: usize,
        turn: usize,
        words: usize,
        tables: *const u32,
        tables_len: usize,
        log: *const u8,
        log_len: usize,
        out: *mut u32,
        out_len: usize,
        letter: u32,
        x: u32,
        y: u32,
        count: *mut usize,
    ) -> u32;

    /// A name put on a record.
    pub fn sogvect_name(
        arenas: usize,
        per: usize,
        pages: usize,
        records: usize,
        turn: usize,
        words: usize,
        tables: *mut u32,
        tables_len: usize,
        log: *const u8,
        log_len: usize,
        out: *const u32,
        out_len: usize,
        name: *const u8,
        name_len: usize,
        record: u32,
    ) -> u32;

    /// A name taken off its record.
    pub fn sogvect_unname(
        arenas: usize,
        per: usize,
        pages: usize,
        records: usize,
        turn: usize,
        words: usize,
        tables: *mut u32,
        tables_len: usize,
        log: *const u8,
        log_len: usize,
        out: *const u32,
        out_len: usize,
        name: *const u8,
        name_len: usize,
    ) -> u32;

    /// The record that has a name: tables and log are read and never written.
    pub fn sogvect_resolve(
        arenas: usize,
        per: usize,
        pages: usize,
        records: usize,
        turn: usize,
        words: usize,
        tables: *const u32,
        tables_len: usize,
        log: *const u8,
        log_len: usize,
        out: *mut u32,
        out_len: usize,
        name: *const u8,
        name_len: usize,
        count: *mut usize,
    ) -> u32;

    /// The blocks held at the last barrier of a log, one number each.
    pub fn sogvect_log_read(
        arenas: usize,
        per: usize,
        pages: usize,
        records: usize,
        turn: usize,
        words: usize,
        log: *const u8,
        log_len: usize,
        out: *mut u32,
        out_len: usize,
        count: *mut usize,
    ) -> u32;

    /// Whether two logs hold the same blocks at their end, by every word.
    pub fn sogvect_log_compare(
        arenas: usize,
        per: usize,
        pages: usize,
        records: usize,
        turn: usize,
        words: usize,
        first: *const u8,
        first_len: usize,
        second: *const u8,
        second_len: usize,
        alike: *mut u32,
    ) -> u32;

    /// A log written again, compressed, by every word.
    pub fn sogvect_log_compact(
        arenas: usize,
        per: usize,
        pages: usize,
        records: usize,
        turn: usize,
        words: usize,
        log: *const u8,
        log_len: usize,
        out: *mut u8,
        out_len: usize,
        count: *mut usize,
    ) -> u32;

    /// A part of a script served.
    pub fn sogvect_script(
        text: *const u8,
        text_len: usize,
        at: *mut usize,
        run: *mut u32,
        run_len: usize,
        tables: *mut u32,
        tables_len: usize,
        log: *mut u8,
        log_len: usize,
        out: *mut u32,
        out_len: usize,
        replies: *mut u8,
        replies_len: usize,
        count: *mut usize,
    ) -> u32;
}
