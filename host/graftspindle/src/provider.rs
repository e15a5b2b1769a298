//! The provider's side: reading an HGC back beside its HGV.

use crate::number::unless_refused;
use crate::sizes::LINE;
use crate::{raw, Counts, Number, Verdict};

/// The counts, and a verdict for each line of the HGV.
pub fn read_back(hgv: &[u8], hgc: &[u8]) -> Result<(Counts, Vec<Verdict>), Number> {
    // Room enough: beside its lines an HGV has a header and a footer.
    let mut bytes = vec![0; hgv.len() / LINE];
    let done = raw::read_back(hgv, hgc, &mut bytes);
    bytes.truncate((done.taken + done.rejected) as usize);
    let verdict = |byte| Verdict::try_from(byte).expect("it is proved that an HGC with another reason is 52");
    let verdicts = bytes.into_iter().map(verdict).collect();
    unless_refused(done.number, (Counts { taken: done.taken, rejected: done.rejected }, verdicts))
}
