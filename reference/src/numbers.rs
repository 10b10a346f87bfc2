//! The numbers that the host is told: document 01, "What the host is told", continued by document 02.

pub type Number = u8;

pub const DONE: Number = 0;
pub const BOOK_LENGTH: Number = 1;
pub const BOOK_MARK: Number = 2;
pub const BOOK_VERSION: Number = 3;
pub const BOOK_COUNT: Number = 4;
pub const BOOK_SEID: Number = 5;
pub const BOOK_KIND: Number = 6;
pub const BOOK_LIST: Number = 7;
pub const SIZE: Number = 8;
pub const AREA: Number = 9;
pub const DOES_NOT_APPLY: Number = 10;
pub const CUT: Number = 11;
pub const NOT_LEGAL: Number = 12;
///
pub const BURST: Number = 13;
