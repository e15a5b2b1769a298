//! The sizes of the definition that a caller cuts blocks by and makes room by, in bytes and in parts. Nothing is judged by
//! them.

/// The header of an HGV.
pub const HEADER: usize = 128;

/// A line of an HGV.
pub const LINE: usize = 128;

/// The record at the beginning of a used slot: a taken line, its Valid to replaced by its end.
pub const RECORD: usize = 128;

/// The stamp behind a record: the list sequence of the file that touched it last, its reception, and seven zeros.
pub const STAMP: usize = 40;

/// A list sequence.
pub const LIST: usize = 19;

/// A time, `YYYYMMDDhhmmss`.
pub const TIME: usize = 14;

/// A slot of a register.
pub const SLOT: usize = RECORD + STAMP;

/// The footer of an HGV or an HGC.
pub const FOOTER: usize = 64;

/// No HGV has more lines.
pub const LINES_MOST: usize = 8192;

/// No register has more slots.
pub const SLOTS_MOST: usize = 8192;

/// The header of an HGC.
pub const HGC_HEADER: usize = 110;

/// A line of an HGC: the HGV's, and the two digits of its reason.
pub const HGC_LINE: usize = LINE + 2;

/// An account, as the writer takes it.
pub const ACCOUNT: usize = 100;

/// An issuer row.
pub const ROW: usize = 24;

/// No table has more issuer rows.
pub const ROWS_MOST: usize = 64;

/// The longest HGV that can be in form.
pub const HGV_MOST: usize = HEADER + LINES_MOST * LINE + FOOTER;

/// The longest HGC that can be in form.
pub const HGC_MOST: usize = HGC_HEADER + LINES_MOST * HGC_LINE + FOOTER;

/// The largest register.
pub const REGISTER_MOST: usize = SLOTS_MOST * SLOT;
