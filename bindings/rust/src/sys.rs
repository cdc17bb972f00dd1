//! The raw layer: the functions of the exported library as include/families.h declares them.
//!
//! A slice is a pointer and its number of elements, which may be null where that number is 0. For a
//! call to be sound each pointer must be that of as many elements, those that are written apart
//! from all others. The library asks nothing of what the elements are.

/// The answer of an update that changes nothing, because what is added is there already or what is
/// withdrawn is not.
pub const IDLE: u32 = 100;

/// An addition or a withdrawal: the four tables, then the triple.
pub type Update = unsafe extern "C" fn(
    *mut u32,
    usize,
    *mut u32,
    usize,
    *mut u32,
    usize,
    *mut u16,
    usize,
    u32,
    u32,
    u32,
) -> u32;

/// A question by one of the two ways: the statements, the facts of the way, the question, the output
/// and the count.
pub type Ask = unsafe extern "C" fn(
    *const u32,
    usize,
    *const u32,
    usize,
    *const u32,
    usize,
    *mut u32,
    usize,
    *mut u64,
) -> u32;

/// A listing of one of the three tables of rows: the table, the order, the output and the count.
pub type List = unsafe extern "C" fn(*const u32, usize, u32, *mut u32, usize, *mut u64) -> u32;

/// A writing of one of the three tables of rows: the table, the dictionary, the output and the
/// length.
pub type Write =
    unsafe extern "C" fn(*const u32, usize, *const u8, usize, *mut u8, usize, *mut u64) -> u32;

extern "C" {
    /// Adds a triple: 0 applied, [`IDLE`], or the number that refused.
    pub fn families_add(
        statements: *mut u32,
        statements_len: usize,
        facts: *mut u32,
        facts_len: usize,
        kept: *mut u32,
        kept_len: usize,
        supports: *mut u16,
        supports_len: usize,
        subject: u32,
        property: u32,
        object: u32,
    ) -> u32;

    /// Withdraws a triple, with the same answers.
    pub fn families_withdraw(
        statements: *mut u32,
        statements_len: usize,
        facts: *mut u32,
        facts_len: usize,
        kept: *mut u32,
        kept_len: usize,
        supports: *mut u16,
        supports_len: usize,
        subject: u32,
        property: u32,
        object: u32,
    ) -> u32;

    /// Runs a delivery: 0, or the number that refused the whole. The four words of the result are
    /// the delivery number and the entries applied, idle and refused.
    pub fn families_deliver(
        statements: *mut u32,
        statements_len: usize,
        facts: *mut u32,
        facts_len: usize,
        kept: *mut u32,
        kept_len: usize,
        supports: *mut u16,
        supports_len: usize,
        bytes: *const u8,
        bytes_len: usize,
        result: *mut u32,
    ) -> u32;

    /// Puts a question to the statements and the kept facts: 0, or the number that refused.
    pub fn families_ask_kept(
        statements: *const u32,
        statements_len: usize,
        kept: *const u32,
        kept_len: usize,
        question: *const u32,
        question_len: usize,
        rows: *mut u32,
        rows_len: usize,
        count: *mut u64,
    ) -> u32;

    /// Puts a question to the statements and the explicit facts, with the same answers.
    pub fn families_ask_rewritten(
        statements: *const u32,
        statements_len: usize,
        facts: *const u32,
        facts_len: usize,
        question: *const u32,
        question_len: usize,
        rows: *mut u32,
        rows_len: usize,
        count: *mut u64,
    ) -> u32;

    /// Gives the alternatives of an atom, with the same answers.
    pub fn families_alternatives(
        statements: *const u32,
        statements_len: usize,
        subject: u32,
        property: u32,
        object: u32,
        rows: *mut u32,
        rows_len: usize,
        count: *mut u64,
    ) -> u32;

    /// Lists the statements in a column order, with the same answers.
    pub fn families_list_statements(
        table: *const u32,
        table_len: usize,
        order: u32,
        rows: *mut u32,
        rows_len: usize,
        count: *mut u64,
    ) -> u32;

    /// Lists the facts likewise.
    pub fn families_list_facts(
        table: *const u32,
        table_len: usize,
        order: u32,
        rows: *mut u32,
        rows_len: usize,
        count: *mut u64,
    ) -> u32;

    /// Lists the kept facts likewise.
    pub fn families_list_kept(
        table: *const u32,
        table_len: usize,
        order: u32,
        rows: *mut u32,
        rows_len: usize,
        count: *mut u64,
    ) -> u32;

    /// Reads a file of N-Triples with a dictionary into a delivery: 0, or the number that refused.
    /// The length is that of the delivery, 0 where it was refused.
    pub fn families_read_ntriples(
        file: *const u8,
        file_len: usize,
        dictionary: *mut u8,
        dictionary_len: usize,
        delivery: *mut u8,
        delivery_len: usize,
        length: *mut u64,
    ) -> u32;

    /// Writes the statements as canonical N-Triples, with the texts of a dictionary: 0, or the number
    /// that refused. The length is that of the lines, 0 where they were refused.
    pub fn families_write_statements(
        table: *const u32,
        table_len: usize,
        dictionary: *const u8,
        dictionary_len: usize,
        text: *mut u8,
        text_len: usize,
        length: *mut u64,
    ) -> u32;

    /// Writes the facts likewise.
    pub fn families_write_facts(
        table: *const u32,
        table_len: usize,
        dictionary: *const u8,
        dictionary_len: usize,
        text: *mut u8,
        text_len: usize,
        length: *mut u64,
    ) -> u32;

    /// Writes the kept facts likewise.
    pub fn families_write_kept(
        table: *const u32,
        table_len: usize,
        dictionary: *const u8,
        dictionary_len: usize,
        text: *mut u8,
        text_len: usize,
        length: *mut u64,
    ) -> u32;
}
