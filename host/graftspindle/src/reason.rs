//! The reasons for which a line is rejected, and the verdict of a line.

use std::fmt;

numbered! {
    /// Why a line was rejected, in the words of AP-3.1.
    Reason {
        1 Duplicate "duplicate entry"
        2 Luhn "PAN number not valid (Luhn code)"
        3 Digits "number of digits in PAN not correct"
        4 Range "PAN number or context mark not within TSP's range"
        5 Obe "OBE is not valid"
        6 NationalityMissing "nationality of licence plate missing"
        8 ContextMark "context mark missing or wrong"
        9 Plate "licence plate number or nationality missing or wrong"
        12 Miscellaneous "miscellaneous"
    }
}

/// What became of a line. It is shown as `taken`, or as `rejected 12: miscellaneous`.
#[derive(Clone, Copy, Debug, PartialEq, Eq, Hash)]
pub enum Verdict {
    /// The register holds its record.
    Taken,
    /// The HGC returns it with this reason.
    Rejected(Reason),
}

impl TryFrom<u8> for Verdict {
    type Error = crate::Undefined;

    /// The definition's byte for a line: 0 if taken, else the reason.
    fn try_from(byte: u8) -> Result<Verdict, crate::Undefined> {
        match byte {
            0 => Ok(Verdict::Taken),
            reason => Reason::try_from(u64::from(reason)).map(Verdict::Rejected),
        }
    }
}

impl fmt::Display for Verdict {
    fn fmt(&self, f: &mut fmt::Formatter) -> fmt::Result {
        match self {
            Verdict::Taken => f.write_str("taken"),
            Verdict::Rejected(reason) => write!(f, "rejected {reason}"),
        }
    }
}
