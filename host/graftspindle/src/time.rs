//! Times as numbers.

use crate::number::unless_refused;
use crate::{raw, Number};

/// The seconds since 00010101000000 of a time `YYYYMMDDhhmmss`, 22 where it is not real.
///
/// ```
/// use graftspindle::{seconds, Number};
///
/// assert_eq!(seconds(b"00010102000000"), Ok(86_400));
/// assert_eq!(seconds(b"20230229000000"), Err(Number::Time));
/// ```
pub fn seconds(time: &[u8]) -> Result<u64, Number> {
    let done = raw::seconds(time);
    unless_refused(done.number, done.seconds)
}
