//! What is at the place where something is to be written: it is replaced where it is empty or of the same kind.

use std::path::Path;

use super::arguments::Arguments;
use super::options::{Opt, FORCE};
use super::Refusal;
use crate::files::{Disk, Place};
use graftspindle::sizes::{FOOTER, HGC_HEADER, HGC_LINE, HGC_MOST, HGV_MOST, LINE, ROW, ROWS_MOST};
use graftspindle::Number;

/// What is to be written.
pub enum Kind {
    Hgc,
    Hgv,
    Rows,
}

impl Kind {
    fn most(&self) -> usize {
        match self {
            Kind::Hgc => HGC_MOST,
            Kind::Hgv => HGV_MOST,
            Kind::Rows => ROW * ROWS_MOST,
        }
    }

    fn words(&self) -> &'static str {
        match self {
            Kind::Hgc => "no HGC",
            Kind::Hgv => "no HGV",
            Kind::Rows => "no table of issuer rows",
        }
    }

    fn fits(&self, bytes: &[u8]) -> bool {
        match self {
            Kind::Hgc => is_hgc(bytes),
            Kind::Hgv => is_hgv(bytes),
            Kind::Rows => graftspindle::rows_in_form(bytes).is_ok(),
        }
    }
}

pub fn may_replace(disk: &dyn Disk, given: &Arguments, place: &Place, kind: Kind) -> Result<(), Refusal> {
    if given.is_given(&FORCE) || !disk.exists(place.path())? {
        return Ok(());
    }
    let there = disk.read(place.path(), kind.most() + 1)?;
    if there.is_empty() || kind.fits(&there) {
        return Ok(());
    }
    let (name, words) = (place.path().display(), kind.words());
    Err(Refusal::Fault(format!("{name} is there and is {words}: it is not replaced; --force replaces it")))
}

/// What is written must not fall on what it is made from.
pub fn must_be_apart<'a>(
    option: &Opt,
    place: &Place,
    others: impl IntoIterator<Item = &'a Path>,
) -> Result<(), Refusal> {
    for other in others {
        if other.canonicalize().is_ok_and(|other| other == place.path()) {
            return Err(Refusal::Fault(format!("--{} would replace {}", option.name, other.display())));
        }
    }
    Ok(())
}

/// Asked of the proved reading back: it looks at the HGC, which here is none, only once the HGV is in form.
fn is_hgv(bytes: &[u8]) -> bool {
    graftspindle::read_back(bytes, &[]) == Err(Number::Hgc)
}

/// Asked of the proved reading back, beside the HGV that has the HGC's lines and no other. How many lines of the true one
/// were taken cannot be known from the HGC, so that field is made 0.
fn is_hgc(bytes: &[u8]) -> bool {
    let lines = bytes.len().checked_sub(HGC_HEADER + FOOTER);
    lines.is_some() && graftspindle::read_back(&hgv_of(bytes), &with_none_taken(bytes)).is_ok()
}

/// Positions count from 1.
fn with_none_taken(hgc: &[u8]) -> Vec<u8> {
    let mut none = hgc.to_vec();
    none[46..61].fill(b'0');
    none
}

fn hgv_of(hgc: &[u8]) -> Vec<u8> {
    let (head, rest) = hgc.split_at(HGC_HEADER);
    let (lines, footer) = rest.split_at(rest.len() - FOOTER);
    let (sender, list, reception) = (&head[7..13], &head[13..32], &head[32..46]);
    let count = format!("{:015}", lines.len() / HGC_LINE);
    let zeros = [b'0'; 27];
    let mut hgv = [b"0", sender, b"000002", list, b"HGV", &zeros[..16], &zeros[..14], count.as_bytes()].concat();
    hgv.extend([reception, b"120001", &zeros, b"\n"].concat());
    for line in lines.chunks(HGC_LINE) {
        hgv.extend([&line[..line.len().min(LINE - 1)], b"\n"].concat());
    }
    hgv.extend(footer);
    hgv
}
