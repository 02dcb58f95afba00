//! The machine's sizes, as document 01 has them. They are the tests' own:
//! neither the port's constants nor the original's. The lengths of records and
//! reports are sums over them, which `tests/` holds to the document's numbers.

/// The words of memory, and so the most of an image that a machine takes.
pub const MEMORY_WORDS: usize = 256;
/// The words that PC can come to: it has one byte, whatever memory has.
pub const CODE_WORDS: usize = 256;
/// The most words of an image that is listed, and of one that is assembled.
pub const LISTING_WORDS: usize = 256;
/// The first length in bytes of an image that has more whole words: so many
/// bytes decide every answer of the listing program.
pub const LISTING_TOO_LONG: usize = 2 * (LISTING_WORDS + 1);
pub const REGISTERS: usize = 16;
/// The bits of a word: a shift by so many, or by more, leaves nothing.
pub const WORD_BITS: u8 = 16;
/// The bytes that a text has room for.
pub const TEXT: usize = 32;
/// The most records that a trace has.
pub const TRACE_RECORDS: usize = 512;
/// The most records that a history has, however long its store is.
pub const HISTORY_RECORDS: usize = 20_000;
/// The most breakpoints, and the largest budget, of a guarded run.
pub const BREAKPOINTS: usize = 256;
pub const LARGEST_BUDGET: u64 = 1_000_000;
