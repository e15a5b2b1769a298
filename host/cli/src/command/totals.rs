//! How many lines were rejected for each reason.

use std::collections::BTreeMap;

use super::json::Json;
use graftspindle::{Reason, Verdict};

/// In the order of the reasons' numbers.
pub struct Totals(BTreeMap<Reason, u64>);

impl Totals {
    /// What the HGC says of its HGV; nothing where it is not its HGC.
    pub fn of(hgv: &[u8], hgc: &[u8]) -> Totals {
        let (_, verdicts) = graftspindle::read_back(hgv, hgc).ok().unzip();
        let mut totals = BTreeMap::new();
        for verdict in verdicts.unwrap_or_default() {
            if let Verdict::Rejected(reason) = verdict {
                *totals.entry(reason).or_default() += 1;
            }
        }
        Totals(totals)
    }

    pub fn text(&self) -> String {
        self.0.iter().map(|(reason, count)| format!("rejected {reason}: {count}\n")).collect()
    }

    pub fn json(&self) -> Json {
        let total = |(reason, count): (&Reason, &u64)| {
            Json::Object(vec![("reason", reason.number().into()), ("lines", (*count).into())])
        };
        Json::List(self.0.iter().map(total).collect())
    }
}
