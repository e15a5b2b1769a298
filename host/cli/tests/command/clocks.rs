//! The two clocks: the register by UTC, the HGC by local time, and what is told of the offset between them.

use crate::common::*;
use graftspindle::sizes::SLOT;
use graftspindle::{offset_in_range, seconds, NoOffset, Number, Offset};
use graftspindle_checks::sample;
use graftspindle_cli::audit::text;

const COPY: &str = "update --copy @copy --mode incremental @hgv @hgc";

fn with_offset(line: &str, offset: &str) -> String {
    line.replacen(" --mode", &format!(" --offset {offset} --mode"), 1)
}

/// The HGC's reception, and that of the last used slot's stamp.
fn receptions(folder: &Folder) -> (String, String) {
    let (hgc, register) = (folder.read("hgc"), folder.read("register"));
    let last = register.chunks(SLOT).rfind(|slot| slot[0] == b'1').expect("a record");
    let text = |bytes: &[u8]| String::from_utf8(bytes.to_vec()).expect("ASCII");
    (text(&hgc[32..46]), text(&last[147..161]))
}

#[test]
fn both_clocks() {
    let cases = [
        ("+01:00", "20250310060000"),
        ("-01:30", "20250310033000"),
        ("+14:00", "20250310190000"),
        ("-12:00", "20250309170000"),
        ("+00:00", "20250310050000"),
        ("-00:00", "20250310050000"),
    ];
    for (offset, local) in cases {
        let folder = ready();
        let done = graftspindle(&folder, &with_offset(IMPORT, offset));
        assert_eq!((done.status, done.fault.as_str()), (0, ""));
        assert_eq!(receptions(&folder), (local.to_string(), "20250310050000".to_string()), "{offset}");
        let told = format!("received 20250310050000 UTC, which the HGC shows as {local} ({offset})");
        assert_eq!(done.said.lines().any(|line| line == told), !offset.ends_with("00:00"), "{}", done.said);
        assert!(folder.read("register") == imported().0, "{offset}");
    }
}

/// Without an offset all is as with none between the clocks.
#[test]
fn without_an_offset() {
    let folder = ready();
    assert_eq!(graftspindle(&folder, &with_offset(IMPORT, "+00:00")).said.lines().count(), 2);
    assert!(both(&folder) == imported());
}

#[test]
fn offset_in_json() {
    let folder = ready();
    let done = graftspindle(&folder, &format!("{} --json", IMPORT.replace(" --mode", " --offset=-03:30 --mode")));
    let told = "\"reception\":\"20250310050000\",\"offset\":\"-03:30\",\"shown\":\"20250310013000\",";
    assert!(done.status == 0 && done.said.contains(told), "{}", done.said);
}

/// The copy is the register with the offset of the import, and with no other.
#[test]
fn copies() {
    for (update, same) in [("+01:00", true), ("+02:00", false), ("-01:00", false), ("+00:00", false)] {
        let folder = ready();
        assert_eq!(graftspindle(&folder, &with_offset(IMPORT, "+01:00")).status, 0);
        assert_eq!(graftspindle(&folder, "register new --slots 8 @copy").status, 0);
        assert_eq!(graftspindle(&folder, &with_offset(COPY, update)).status, 0);
        assert_eq!(folder.read("copy") == folder.read("register"), same, "{update}");
        let read = graftspindle(&folder, "read-back @hgv @hgc");
        assert!(read.status == 0 && read.said.ends_with("taken 3, rejected 1\n"), "{}", read.said);
    }
}

/// A provider in two times of the year: each list with its own offset.
#[test]
fn summer_time() {
    let folder = ready();
    assert_eq!(graftspindle(&folder, "register new --slots 8 @copy").status, 0);
    let lists = [
        ("01", "20250330005900", "+01:00", "20250330015900"),
        ("02", "20250330010000", "+02:00", "20250330030000"),
        ("03", "20251026005900", "+02:00", "20251026025900"),
        ("04", "20251026010000", "+01:00", "20251026020000"),
    ];
    for (list, received, offset, local) in lists {
        let mut hgv = sample::hgv(2);
        hgv[30..32].copy_from_slice(list.as_bytes());
        folder.write("hgv", &hgv);
        let import = IMPORT.replace("20250310050000", received).replace("incremental", "full");
        assert_eq!(graftspindle(&folder, &with_offset(&import, offset)).status, 0);
        assert_eq!(receptions(&folder), (local.to_string(), received.to_string()));
        assert_eq!(graftspindle(&folder, &with_offset(&COPY.replace("incremental", "full"), offset)).status, 0);
        assert!(folder.read("copy") == folder.read("register"), "{list}");
    }
}

/// Of an import: the time, the offset or the year.
#[test]
fn refused_22() {
    let folder = ready();
    let at = |received: &str, offset: &str| with_offset(&IMPORT.replace("20250310050000", received), offset);
    assert_says(&folder, &at("20250230050000", "+01:00"), 22, &["20250230050000"]);
    assert_says(&folder, &at("20250230050000", "+15:00"), 22, &["20250230050000"]);
    for offset in ["+14:01", "-12:01", "+99:59", "-99:59"] {
        let told = format!("the offset {offset} is not from -12:00 to +14:00");
        assert_says(&folder, &at("20250310050000", offset), 22, &[&told]);
    }
    let year = "the local year is none of 0001 to 9999";
    assert_says(&folder, &at("00010101000000", "-00:01"), 22, &["00010101000000", "-00:01", year]);
    assert_says(&folder, &at("99991231235959", "+00:01"), 22, &["99991231235959", "+00:01", year]);
}

/// Of an update: another HGC, the offset or the year. Reading back asks for none.
#[test]
fn refused_52() {
    let folder = ready();
    assert_eq!(graftspindle(&folder, &IMPORT.replace("20250310050000", "00010101000000")).status, 0);
    folder.write("copy", &[0; 8 * SLOT]);
    let name = folder.text("hgc");
    assert_says(&folder, &with_offset(COPY, "+15:00"), 52, &[&name, "the offset +15:00 is not from"]);
    let year = "at 00010101000000 with the offset +01:00 the UTC year is none of 0001 to 9999";
    assert_says(&folder, &with_offset(COPY, "+01:00"), 52, &[&name, year]);
    let other = COPY.replace("@hgv @hgc", "@hgv @hgv");
    assert_says(&folder, &with_offset(&other, "+15:00"), 52, &[&folder.text("hgv"), "beside"]);
    assert_eq!(graftspindle(&folder, "read-back @hgv @hgc").status, 0);
    assert_eq!(graftspindle(&folder, &with_offset(COPY, "-01:00")).status, 0);
}

/// What is no offset is a fault of the command line.
#[test]
fn texts_that_are_none() {
    let folder = ready();
    for text in ["", "1", "60", "+1:00", "01:00", "+0100", "+01:60", "+01:00:00", "+01-00", "Z", "+01:0x", "++1:00"] {
        let line = IMPORT.replace(" --mode", &format!(" --offset={text} --mode"));
        assert_says(&folder, &line, 1, &["--offset is +HH:MM or -HH:MM, not "]);
        assert_eq!(text.parse::<Offset>(), Err(NoOffset), "{text}");
    }
    assert!(NoOffset.to_string().contains("+HH:MM"));
}

/// Every text of the form, there and back.
#[test]
fn texts_of_offsets() {
    for (sign, factor) in [('+', 1), ('-', -1)] {
        for all in 0..6000 {
            let text = format!("{sign}{:02}:{:02}", all / 60, all % 60);
            let offset: Offset = text.parse().expect("an offset");
            assert_eq!((offset, offset.minutes()), (Offset::of_minutes(factor * all), factor * all));
            assert_eq!(offset.to_string(), if all == 0 { "+00:00" } else { &text });
            assert_eq!(offset_in_range(offset).is_ok(), (-720..=840).contains(&offset.minutes()), "{offset}");
        }
    }
    for minutes in [i64::MIN, i64::MAX] {
        assert_eq!(offset_in_range(Offset::of_minutes(minutes)), Err(Number::Time));
        assert!(Offset::of_minutes(minutes).to_string().ends_with(if minutes < 0 { ":08" } else { ":07" }));
    }
    assert_eq!((Offset::default(), Offset::UTC.minutes()), (Offset::UTC, 0));
}

#[test]
fn seconds_of_times() {
    assert_eq!(seconds(b"00010101000000"), Ok(0));
    assert_eq!(seconds(b"20250310050000"), Ok(63_877_179_600));
    assert_eq!(seconds(b"99991231235959"), Ok(315_537_897_599));
    assert_eq!([seconds(b"20250310240000"), seconds(b"2025031005000"), seconds(b"")], [Err(Number::Time); 3]);
}

/// The journal has the offset of each import and update, so that what a provider has to apply stands in it.
#[test]
fn lines_of_the_journal() {
    let folder = ready();
    let kept = |line: &str| line.replacen(" --mode", " --journal @journal --mode", 1);
    folder.write("copy", &[0; 8 * SLOT]);
    for line in [with_offset(IMPORT, "+01:00"), with_offset(COPY, "+01:00"), COPY.to_string()] {
        assert_eq!(graftspindle(&folder, &kept(&line)).status, 0, "{line}");
    }
    assert_eq!(graftspindle(&folder, &kept(&with_offset(IMPORT, "+15:00"))).status, 22);
    let journal = String::from_utf8(folder.read("journal")).expect("UTF-8");
    let told: Vec<_> = journal.lines().map(|line| (text(line, "command"), text(line, "offset"))).collect();
    let (import, update) = (Some("import"), Some("update"));
    let offsets = [(import, "+01:00"), (update, "+01:00"), (update, "+00:00"), (import, "+15:00")];
    assert_eq!(told, offsets.map(|(command, offset)| (command, Some(offset))));
    assert_eq!(text(&journal, "reception"), Some("20250310050000"), "UTC");
}

/// A journal from before the offset is read as it was: none of its lines has one.
#[test]
fn journal_of_before() {
    let folder = ready();
    let line = IMPORT.replacen(" --mode", " --journal @journal --mode", 1);
    assert_eq!(graftspindle(&folder, &line).status, 0);
    let journal = String::from_utf8(folder.read("journal")).expect("UTF-8");
    let before = journal.replace("\"offset\":\"+00:00\",", "");
    assert_ne!(before, journal);
    folder.write("journal", before.as_bytes());
    let again = graftspindle(&folder, &with_offset(&line, "+02:00"));
    assert_eq!(again.status, 0);
    assert!(again.fault.contains("was imported before, at 2"), "{}", again.fault);
    assert!(!again.fault.contains("not the one that the journal"), "{}", again.fault);
}
