//! What the paper lists, written out from it and from nothing else: lists alone, no rule.

/// A column of a line: its name, its first and its last position.
pub type Column = (&'static str, usize, usize);

/// The columns of a line that an account gives, in their order; the others are the same in each line of a sender.
pub const COLUMNS: [Column; 16] = [
    ("PAN", 14, 32),
    ("plate", 33, 42),
    ("nationality", 43, 45),
    ("tariff", 46, 47),
    ("class", 48, 48),
    ("axles", 49, 49),
    ("context mark", 50, 61),
    ("OBE ID", 62, 79),
    ("emission", 80, 85),
    ("fuel", 86, 87),
    ("88", 88, 88),
    ("engine", 92, 94),
    ("CO2", 95, 96),
    ("weight", 97, 100),
    ("Valid to", 101, 114),
    ("separator", 115, 116),
];

/// Fuel (86-87).
pub const FUELS: [&str; 16] =
    ["01", "02", "03", "04", "05", "06", "09", "10", "11", "12", "13", "14", "15", "20", "21", "22"];

/// Tariff (46-47).
pub const TARIFFS: [&str; 8] = ["12", "22", "31", "32", "41", "51", "63", "71"];

/// The weights (97-100) that a line may give under each tariff, from and to. A record may have any.
pub const WEIGHTS: [(&str, &str, &str); 8] = [
    ("12", "0001", "0349"),
    ("22", "0001", "0349"),
    ("31", "0350", "9999"),
    ("32", "0350", "9999"),
    ("41", "0350", "1199"),
    ("51", "1200", "9999"),
    ("63", "0001", "9999"),
    ("71", "0001", "9999"),
];

/// What stands for a missing weight: a line may have it under each tariff.
pub const NO_WEIGHT: &str = "0000";

/// A tariff that allows every weight.
pub const FREE_TARIFF: &str = "71";

/// Emission (80-85).
pub const EMISSIONS: [&str; 9] =
    ["0     ", "EEV   ", "Euro1 ", "Euro2 ", "Euro3 ", "Euro4 ", "Euro5 ", "Euro6 ", "Euro7 "];

/// Engine (92-94).
pub const ENGINES: [&str; 54] = [
    "000", "001", "002", "003", "004", "005", "006", "007", "008", "009", "010", "011", "012", "013", "014", "015",
    "016", "017", "018", "019", "020", "021", "022", "023", "024", "025", "026", "027", "028", "029", "030", "031",
    "032", "033", "034", "035", "036", "037", "038", "039", "040", "041", "042", "043", "044", "045", "046", "047",
    "048", "049", "050", "051", "052", "255",
];

/// Position 88.
pub const YES_OR_NO: &[u8] = b"YN";

pub const DIGITS: &[u8] = b"0123456789";
pub const DIGITS_OR_BLANK: &[u8] = b"0123456789 ";
pub const HEX_DIGITS: &[u8] = b"0123456789ABCDEF";
pub const CAPITALS: &[u8] = b"ABCDEFGHIJKLMNOPQRSTUVWXYZ";
pub const ZERO: &[u8] = b"0";
pub const NOT_ZERO: &[u8] = b"123456789";
pub const BLANK: &[u8] = b" ";

/// What a plate may have, and what may stand behind it.
pub const PLATE: &[u8] = b"ABCDEFGHIJKLMNOPQRSTUVWXYZ0123456789abcdefghijklmnopqrstuvwxyz\xC4\xD6\xDC\xE4\xFC";
pub const PLATE_OR_BLANK: &[u8] =
    b"ABCDEFGHIJKLMNOPQRSTUVWXYZ0123456789abcdefghijklmnopqrstuvwxyz\xC4\xD6\xDC\xE4\xFC ";

/// The separators of a plate of 1, 2, .. 10 characters.
pub const SEPARATORS: [&str; 10] = [
    "00",
    "00 20",
    "00 20 30 24",
    "00 20 30 40 24 25 35",
    "00 20 30 40 50 24 25 26 35 36 46",
    "00 20 30 40 50 60 24 25 26 27 35 36 37 46 47 57",
    "00 20 30 40 50 60 70 24 25 26 27 28 35 36 37 38 46 47 48 57 58 68",
    "00 20 30 40 50 60 70 80 24 25 26 27 28 29 35 36 37 38 39 46 47 48 49 57 58 59 68 69 79",
    "00 20 30 40 50 60 70 80 90 24 25 26 27 28 29 35 36 37 38 39 46 47 48 49 57 58 59 68 69 79",
    "00 20 30 40 50 60 70 80 90 24 25 26 27 28 29 35 36 37 38 39 46 47 48 49 57 58 59 68 69 79",
];

/// The days of January, February, .. December of a year that is no leap year; a leap year has a 29th of February.
pub const MONTHS: [u32; 12] = [31, 28, 31, 30, 31, 30, 31, 31, 30, 31, 30, 31];

/// A year is a leap year whose last two digits are one of these, or are 00 behind one of these.
pub const FOURS: [&str; 24] = [
    "04", "08", "12", "16", "20", "24", "28", "32", "36", "40", "44", "48", "52", "56", "60", "64", "68", "72", "76",
    "80", "84", "88", "92", "96",
];

/// How many hours a day has, minutes an hour, seconds a minute.
pub const HOURS: u32 = 24;
pub const MINUTES: u32 = 60;
pub const SECONDS: u32 = 60;

/// What each digit adds to the Luhn sum where it is doubled.
pub const DOUBLED: [u32; 10] = [0, 2, 4, 6, 8, 1, 3, 5, 7, 9];
