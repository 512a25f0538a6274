//! "the kinds, one byte a sector: 0 blank, 1 data, 2 link, 3 unreadable"

pub const BLANK: u8 = 0;
pub const DATA: u8 = 1;
pub const LINK: u8 = 2;
pub const UNREADABLE: u8 = 3;
