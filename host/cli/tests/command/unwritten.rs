//! A list that is not written: the refusal names line and field, or the option, and what was expected; nothing is made.

use crate::common::*;
use crate::tables::*;

/// Refused with the status, in one line that has all these words.
fn assert_unwritten(folder: &Folder, line: &str, status: i32, words: &[&str]) {
    let before = folder.all();
    let done = graftspindle(folder, line);
    assert_eq!((done.status, done.said.as_str()), (status, ""), "{line}: {}", done.fault);
    assert!(done.fault.starts_with(&format!("graftspindle: {status}: ")) && done.fault.lines().count() == 1);
    for word in words {
        assert!(done.fault.contains(word), "{word}: {}", done.fault);
    }
    assert!(folder.all() == before, "{line}");
}

/// For each field what is wrong in the second account, whose tariff is 31 and whose plate has six characters; and what is
/// said of the right.
const WRONG: [(&str, &[&str], &str); 16] = [
    (
        "pan",
        &["9799001200000029", "979900120000012", "9578000700000000019", "", "97990012 0000028", "x"],
        "14-32: up to 19",
    ),
    ("plate", &["", "AB-123", "AB 123", "ÄÖö", "ß"], "33-42: 1 to 10"),
    ("nationality", &["", "no", "S", "SWE", "S1"], "43-45: the two capitals"),
    ("tariff", &["", "1", "13", " 1", "xx"], "46-47: 12, 22, 31, 32, 41, 51, 63 or 71"),
    ("class", &["x", "-"], "48: a digit or nothing"),
    ("axles", &["x", "²"], "49: a digit or nothing"),
    ("context_mark", &["", "0123456789A", "0123456789AG", "0123456789ab"], "50-61: 12 of"),
    ("obe_id", &["", "0123456789ABCDEF0", "0123456789ABCDEF0G"], "62-79: 18 of"),
    ("emission", &["", "Euro8", "euro6", "1"], "80-85: 0, EEV"),
    ("fuel", &["", "0", "7", "16", "23", "x"], "86-87: 01 to 06"),
    ("chargeable", &["", "y", "J", "1"], "88: Y or N"),
    ("engine", &["53", "254", "4.0", "-1", "x"], "92-94: 000 to 052"),
    ("co2", &["x", "-1", "1x"], "95-96: two digits"),
    ("weight", &["x", "1.8", "18 0"], "97-100: four digits"),
    ("valid_to", &["20250230000000", "2025", "0", "20271231", "2027123123595x"], "101-114: a real time"),
    ("separator", &["1", "7", "70", "10", "34", "38", "x"], "115-116: two digits pq"),
];

#[test]
fn each_field() {
    assert_eq!(WRONG.map(|(name, ..)| name), NAMES);
    for (name, values, expected) in WRONG {
        for value in values {
            let folder = given(with(name, value));
            let at = format!("{} line 3, {name} \"{value}\", expected in position", folder.text("csv"));
            assert_unwritten(&folder, WRITE, 61, &[&at, expected]);
        }
    }
}

/// What one field has to do with another one shows at the later one.
#[test]
fn fields_that_do_not_fit_each_other() {
    let short = table(&ACCOUNTS).replace("ABC123", "AB");
    assert_unwritten(&given(short), WRITE, 61, &["line 2, separator \"30\", expected"]);
}

/// The first account with this tariff and this weight.
fn weighing(tariff: &str, weight: &str) -> Folder {
    given(table(&ACCOUNTS).replace(",NO,12,", &format!(",NO,{tariff},")).replace(",0180,", &format!(",{weight},")))
}

/// The weights that the words name beside each tariff are written, and those next to them are refused at the weight.
#[test]
fn weight_beside_the_tariff() {
    for (tariffs, right, wrong, words) in [
        (&["12", "22"][..], &["0001", "0349"][..], &["0350", "9999"][..], "at most 0349 with tariff 12 or 22"),
        (&["31", "32"], &["0350", "9999"], &["0001", "0349"], "at least 0350 with 31 or 32"),
        (&["41"], &["0350", "1199"], &["0001", "0349", "1200", "9999"], "0350 to 1199 with 41"),
        (&["51"], &["1200", "9999"], &["0001", "1199"], "at least 1200 with 51"),
        (&["63", "71"], &["0001", "0349", "0350", "1199", "1200", "9999"], &[], ""),
    ] {
        for tariff in tariffs {
            for weight in right.iter().chain(&["", "0", "0000"]) {
                let done = graftspindle(&weighing(tariff, weight), WRITE);
                assert_eq!((done.status, done.fault.as_str()), (0, ""), "{tariff} {weight}");
            }
            for weight in wrong {
                let at = format!("line 2, weight \"{weight}\", expected in positions 97-100: four digits w");
                assert_unwritten(&weighing(tariff, weight), WRITE, 61, &[&at, words]);
            }
        }
    }
}

/// The first account at fault, and of its fields the first one.
#[test]
fn several_faults() {
    let csv = table(&ACCOUNTS).replace("ABC123,NO", "A-1,no").replace("ÄÖÜäü1", "A-2").replace("0000010", "0000011");
    assert_unwritten(&given(csv), WRITE, 61, &["line 2, plate \"A-1\""]);
    let csv = table(&ACCOUNTS).replace("0000028", "0000029").replace("35\n", "34\n");
    assert_unwritten(&given(csv), WRITE, 61, &["line 3, separator \"34\""]);
}

#[test]
fn values_that_have_no_column() {
    let widths = [19, 10, 3, 2, 1, 1, 12, 18, 6, 2, 1, 3, 2, 4, 14, 2];
    for (name, width) in NAMES.into_iter().zip(widths) {
        let at = format!("line 3, {name} \"");
        let value = "1".repeat(width + 1);
        assert_unwritten(
            &given(with(name, &value)),
            WRITE,
            61,
            &[&at, "expected in position", "longer than the column"],
        );
        assert_unwritten(&given(with(name, "Ł")), WRITE, 61, &[&at, "ISO 8859-1 lacks the character \"Ł\""]);
    }
    let endless = "x".repeat(5000);
    let folder = given(with("plate", &endless));
    assert_unwritten(&folder, WRITE, 61, &[&format!("\"{}..\"", "x".repeat(40))]);
}

/// What a spreadsheet makes of a long number.
#[test]
fn rounded_numbers() {
    let hint = "a spreadsheet may have made a number of it";
    for value in ["9.8E+15", "9,8E+15", "98E14", "9.79900120000000E+15", "9799001200000028.0"] {
        assert_unwritten(&given(with("pan", value)), WRITE, 61, &["line 3, pan \"9", hint]);
    }
    assert_unwritten(&given(with("valid_to", "2.03E+13")), WRITE, 61, &["line 3, valid_to", hint]);
    for (name, value) in [("pan", "9799001200000029"), ("context_mark", "30000000E05"), ("plate", "A.1")] {
        let done = graftspindle(&given(with(name, value)), WRITE);
        assert!(done.status == 61 && !done.fault.contains(hint), "{}", done.fault);
    }
}

#[test]
fn each_option_of_the_header() {
    let folder = given(table(&ACCOUNTS));
    let line = WRITE.replace("--hgv", "--previous HGV9001232025030907 --hgv");
    assert_eq!(graftspindle(&folder, &line.replace("@out", "@right")).status, 0);
    for (option, right, wrong, expected) in [
        ("version", "120001", &["120002", "500001", "0"][..], "120001 or 220001"),
        ("sender", "900123", &["90012", "9001234", "90012X", "x"], "six digits"),
        ("date", "20250310", &["20250230", "2025031", "202503100", "today"], "a real date YYYYMMDD"),
        ("number", "1", &["0", "100", "18446744073709551615"], "1 to 99"),
        (
            "previous",
            "HGV9001232025030907",
            &["HGV9001242025030907", "HGV9001232025023001", "HGV9001232025030900", "HGV0000000000000001", "none"],
            "a list of the same sender",
        ),
        ("created", "20250310040000", &["20250310240000", "20250310", "now"], "a real time YYYYMMDDhhmmss"),
    ] {
        for value in wrong {
            let line = line.replace(&format!("--{option} {right}"), &format!("--{option} {value}"));
            assert_unwritten(&folder, &line, 61, &[&format!("--{option} \"{value}\", expected: {expected}")]);
        }
    }
    for (right, wrong) in
        [("--version 120001", "--version x"), ("--number 1", "--number -1"), ("--number 1", "--number 1x")]
    {
        assert_unwritten(&folder, &line.replace(right, wrong), 1, &[wrong, "is not a number"]);
    }
    for option in
        ["--issuers @rows ", "--sender 900123 ", "--version 120001 ", "--date 20250310 ", "--number 1 ", "--hgv @out "]
    {
        let name = option.split(' ').next().expect("a name");
        assert_unwritten(&folder, &WRITE.replace(option, ""), 1, &[&format!("{name} is missing"), "usage: "]);
    }
}

#[test]
fn rows_at_fault() {
    let folder = given(table(&ACCOUNTS));
    let rows = folder.text("rows");
    let others = WRITE.replace("--sender 900123", "--sender 900129");
    let words = format!("{rows} has no row of 900129, the sender; its actors: 900123, 900124, 900125");
    assert_unwritten(&folder, &others, 61, &[&words]);
    folder.write("rows", b"97990012      081690012X");
    assert_unwritten(&folder, WRITE, 61, &[&format!("the issuer rows {rows} break their form")]);
    folder.write("rows", b"");
    assert_unwritten(&folder, WRITE, 61, &[&format!("{rows} has no row of 900123")]);
    folder.write("rows", b"97990024      0816900123");
    assert_unwritten(&folder, WRITE, 61, &["line 2, pan \"9799001200000010\"", "an issuer row of the sender"]);
}

/// Lines are those of the file: one of the names has a line break, and an empty line stands between two accounts.
#[test]
fn same_pan() {
    let [a, b, c] = ACCOUNTS;
    let mut again = c;
    again[of("pan")] = b[of("pan")];
    let csv =
        table(&[a, b, c, again, b]).replace("pan,", "\"pan\n\",").replace("9799001200000002", "\n9799001200000002");
    let folder = given(&csv);
    let words =
        format!("62: two accounts have the same PAN: {} lines 4 and 7, pan \"9799001200000028\"", folder.text("csv"));
    assert_unwritten(&folder, WRITE, 62, &[&words]);
    assert_unwritten(&given(table(&[a, a])), WRITE, 62, &["lines 2 and 3, pan \"9799001200000010\""]);
    let csv = table(&[a, a, c]).replace(",71,", ",72,");
    assert_unwritten(&given(csv), WRITE, 61, &["line 4, tariff \"72\""]);
}

/// The line of names is refused by name.
#[test]
fn names() {
    let names = |from: &str, to: &str| table(&ACCOUNTS).replacen(from, to, 1);
    for (csv, words) in [
        (names("plate", "licence"), &["names that are no fields: \"licence\"", "fields that are missing: plate"][..]),
        (names("plate", "pan"), &["fields that stand more than once: pan", "missing: plate"]),
        (names("separator", "separator,"), &["names that are no fields: \"\";"]),
        (names(",separator", ""), &["fields that are missing: separator;"]),
        (names("pan,", "pan "), &["no fields: \"pan plate\"", "missing: pan, plate"]),
        (names(",", ";"), &["no fields: \"plate,nationality,"]),
        (names("pan", "\n\nPAN\u{a0}x"), &["line 3 must name each field once", "no fields: \"pan\u{a0}x\""]),
    ] {
        assert_unwritten(&given(csv), WRITE, 1, &[&["write --template prints the names"], words].concat());
    }
}

#[test]
fn what_is_no_table() {
    let csv = table(&ACCOUNTS);
    let latin: Vec<u8> = csv.chars().map(|c| u8::try_from(u32::from(c)).expect("ISO 8859-1")).collect();
    for (bytes, words) in [
        (Vec::new(), "there is no line with the names of the fields"),
        (b"\xEF\xBB\xBF\r\n\r\n".to_vec(), "there is no line with the names of the fields"),
        (latin, "line 3 is not UTF-8"),
        (csv.replace("0180,", "0180").into_bytes(), "line 2 has 15 fields, and the line of names 16"),
        (csv.replace(",SE,", ",SE,,").into_bytes(), "line 3 has 17 fields, and the line of names 16"),
        (csv.replace("\n9799001200000002", "\n\n9799001200000002,").into_bytes(), "line 5 has 17 fields"),
        (csv.replace(",SE,", ",\"SE,").into_bytes(), "line 3: a quote has no end"),
        (csv.replace(",SE,", ",\"S\"E,").into_bytes(), "line 3: something stands behind a closing quote"),
        (vec![b'\n'; 8192 * 2048 + 1], "more than 16777216 bytes"),
    ] {
        let folder = given(bytes);
        assert_unwritten(&folder, WRITE, 1, &[&folder.text("csv"), words]);
    }
    assert_unwritten(&given(csv), &WRITE.replace("@csv", "@gone"), 1, &["cannot read"]);
}
