//! The writer for providers: a whole HGV from accounts.

use crate::number::unless_refused;
use crate::sizes::{ACCOUNT, FOOTER, HEADER, LINE};
use crate::{raw, List, Number};

/// A previous list where there is none.
pub const NO_LIST: &[u8; 19] = b"HGV0000000000000000";

/// The columns of an account, in their order, each with its width: text is left-adjusted and padded with blanks.
#[derive(Clone, Copy, Debug, PartialEq, Eq)]
pub struct Account {
    /// The PAN, up to 19 digits.
    pub pan: [u8; 19],
    /// The plate, ISO 8859-1.
    pub plate: [u8; 10],
    /// The country of registration: two capitals and a blank.
    pub nationality: [u8; 3],
    /// The tariff class.
    pub tariff: [u8; 2],
    /// The vehicle class, or a blank.
    pub class: [u8; 1],
    /// The axles, or a blank.
    pub axles: [u8; 1],
    /// The context mark, 12 hexadecimal digits.
    pub context_mark: [u8; 12],
    /// The OBE ID, 18 hexadecimal digits.
    pub obe_id: [u8; 18],
    /// The emission class.
    pub emission: [u8; 6],
    /// The fuel.
    pub fuel: [u8; 2],
    /// The letter of position 88, Y or N.
    pub chargeable: [u8; 1],
    /// The engine.
    pub engine: [u8; 3],
    /// CO2.
    pub co2: [u8; 2],
    /// The weight code; 0000 where it is missing.
    pub weight: [u8; 4],
    /// The end, or 14 zeros.
    pub valid_to: [u8; 14],
    /// Where the plate's separators stand.
    pub separator: [u8; 2],
}

impl Account {
    /// The columns one behind the other, as [`List`] takes them.
    pub fn bytes(&self) -> [u8; ACCOUNT] {
        let columns: [&[u8]; 16] = [
            &self.pan,
            &self.plate,
            &self.nationality,
            &self.tariff,
            &self.class,
            &self.axles,
            &self.context_mark,
            &self.obe_id,
            &self.emission,
            &self.fuel,
            &self.chargeable,
            &self.engine,
            &self.co2,
            &self.weight,
            &self.valid_to,
            &self.separator,
        ];
        let mut bytes = [0; ACCOUNT];
        let mut at = 0;
        for column in columns {
            bytes[at..at + column.len()].copy_from_slice(column);
            at += column.len();
        }
        bytes
    }
}

/// The HGV of the accounts.
pub fn write(list: &List) -> Result<Vec<u8>, Number> {
    let mut hgv = vec![0; HEADER + list.accounts.len() / ACCOUNT * LINE + FOOTER];
    let done = raw::write(list, &mut hgv);
    unless_refused(done.number, hgv)
}
