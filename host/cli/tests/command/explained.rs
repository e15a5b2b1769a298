//! `explain`: each field at its positions with its words, and what an import would say.

use crate::common::*;
use graftspindle_checks::sample;
use std::fs::File;
use std::process::Command;

/// A part as it is shown: its heading, the two lines of its ruler, its text and its rows.
struct Part {
    heading: String,
    ruler: [String; 2],
    text: String,
    rows: Vec<String>,
}

impl Part {
    fn of(block: &str) -> Part {
        let lines: Vec<String> = block.lines().map(str::to_string).collect();
        let [heading, tens, units, text, rows @ ..] = &lines[..] else { panic!("{block}") };
        let ruler = [tens.clone(), units.clone()];
        Part { heading: heading.clone(), ruler, text: text.clone(), rows: rows.to_vec() }
    }

    /// The first and the last position of each row, counted from 1.
    fn positions(&self) -> Vec<(usize, usize)> {
        let pair = |row: &String| {
            let (from, to) = row[..8].trim().split_once('-').unwrap_or((row[..8].trim(), row[..8].trim()));
            (from.parse().expect("a position"), to.parse().expect("a position"))
        };
        self.rows.iter().map(pair).collect()
    }

    /// The row of this field: what stands behind its positions and its name.
    fn row(&self, positions: &str, name: &str) -> String {
        let named = |row: &&String| row[..8].trim() == positions && row[10..].starts_with(name);
        let row = self.rows.iter().find(named).unwrap_or_else(|| panic!("{positions} {name}: {:?}", self.rows));
        row[10 + name.len()..].trim().to_string()
    }
}

/// The parts, and the line behind them.
fn explained(hgv: &[u8], options: &str) -> (Vec<Part>, String) {
    let folder = ready();
    folder.write("hgv", hgv);
    let before = folder.all();
    let done = graftspindle(&folder, &format!("explain{options} @hgv"));
    assert_eq!((done.status, done.fault.as_str()), (0, ""), "{options}");
    assert!(folder.all() == before);
    let (parts, last) = done.said.trim_end().rsplit_once("\n\n").expect("parts and a line");
    (parts.split("\n\n").map(Part::of).collect(), last.replace(&folder.text(""), "").to_string())
}

/// The sample's line with this field.
fn line_with(i: usize, from: usize, field: &[u8]) -> Vec<u8> {
    let mut line = sample::line(i).into_bytes();
    line[from - 1..from - 1 + field.len()].copy_from_slice(field);
    line
}

/// The sample's file of two lines with this field, counted from the file's front.
fn file_with(from: usize, field: &[u8]) -> Vec<u8> {
    let mut hgv = sample::hgv(2);
    hgv[from - 1..from - 1 + field.len()].copy_from_slice(field);
    hgv
}

/// The line that the file with this one line shows.
fn only(line: Vec<u8>) -> Part {
    let (mut parts, _) = explained(&sample::hgv_of(&[line]), " --line 1");
    assert_eq!(parts.len(), 1);
    parts.remove(0)
}

const LINE: &str = "1900123      9799001200000010   ABC123B   SE 4123\
30C00B00050330C00B001222070321EEV   21Y   031180420203012312359593800000000000\n";

/// Each field of a line whose values differ from every other's.
#[test]
fn each_field_of_a_line() {
    let expected = "
   1      register identifier   1                    body
   2-7    actor                 900123               the company that issued the OBE
   8-13   shadow                                     not in use
  14-32   PAN                   9799001200000010     16 digits, check digit 0
  33-42   plate                 ABC123B              7 characters
  43-45   nationality           SE                   Sweden
  46-47   tariff                41                   heavy goods vehicle above 3,500 kg and below or equal to 12,000 kg (N2)
  48      class                 2                    UNECE vehicle class as in the OBE, 2
  49      axles                 3                    3 axles of the tractor unit
  50-61   context mark          30C00B000503         ContractProvider 30C00B, TypeOfContract 0005, ContextVersion 03
  62-79   OBE ID                30C00B001222070321   ContractProvider 30C00B, ManufacturerId 0012, EquipmentOBUId 22070321
  80-85   emission              EEV                  EEV
  86-87   fuel                  21                   LNG
  88      chargeable            Y                    chargeable hybrid
  89-91   rest of product code                       blank
  92-94   engine                031                  plug-in hybrid, diesel
  95-96   CO2                   18                   carbon dioxide pollution value 18
  97-100  weight                0420                 4,201 to 4,210 kg
 101-114  Valid to              20301231235959       2030-12-31 23:59:59 UTC
 115-116  separator             38                   AB-C123-B
 117-127  filler                00000000000          reserved for future use
 128      line end              ␊                    LF";
    let part = only(LINE.into());
    assert_eq!(part.heading, "line 1");
    assert_eq!(part.text, LINE.replace('\n', "␊"));
    assert_eq!(part.rows.join("\n"), expected[1..]);
}

#[test]
fn each_field_of_header_and_footer() {
    let header = "
   1      register identifier  0                            header
   2-7    sender               900123                       the company that made this file
   8-13   receiver             000002                       AutoPASS IP
  14-32   list sequence        HGV9001232025031001          list 01 of 900123, 2025-03-10
  33-51   previous sequence    HGV0000000000000000          none before it
  52-65   activation           00000000000000               at once
  66-80   count                000000000000002              2 lines
  81-94   creation             20250310040000               2025-03-10 04:00:00
  95-100  version              120001                       complete or incremental list
 101-127  filler               000000000000000000000000000  reserved for future use
 128      line end             ␊                            LF";
    let (parts, last) = explained(&sample::hgv(2), "");
    let headings: Vec<&str> = parts.iter().map(|part| part.heading.as_str()).collect();
    assert_eq!(headings, ["header", "line 1", "line 2", "footer"]);
    assert_eq!(parts[0].rows.join("\n"), header[1..]);
    assert_eq!(parts[2].row("33-42", "plate"), "GS0001               6 characters");
    assert_eq!(parts[3].row("1", "register identifier"), format!("2{}footer", " ".repeat(63)));
    assert_eq!(parts[3].row("2-63", "filler"), format!("{}  reserved for future use", "0".repeat(62)));
    assert_eq!(parts[3].row("64", "line end"), format!("␊{}LF", " ".repeat(63)));
    assert!(last.starts_with("an incremental import would not refuse this file for its form"), "{last}");
}

/// No position is left out and none is shown twice; the ruler counts them.
#[test]
fn positions_without_a_gap() {
    let (parts, _) = explained(&sample::hgv(2), "");
    for (part, length) in parts.iter().zip([128, 128, 128, 64]) {
        let mut next = 1;
        for (from, to) in part.positions() {
            assert!(from == next && to >= from, "{}: {from}-{to} behind {}", part.heading, next - 1);
            next = to + 1;
        }
        assert_eq!(next, length + 1, "{}", part.heading);
        assert_eq!(part.text.chars().count(), length);
        let [tens, units] = &part.ruler;
        let counted: String = (1..=length).map(|position| char::from(b'0' + (position % 10) as u8)).collect();
        assert_eq!(units, &counted);
        (1..=length / 10).for_each(|ten| assert!(tens[..10 * ten].ends_with(&format!(" {}", 10 * ten)), "{tens}"));
    }
}

/// A weight one column to the left is about ten times as much.
#[test]
fn weight() {
    let shown = |from, field: &[u8]| only(line_with(0, from, field)).row("97-100", "weight");
    let words = |field: &[u8]| shown(97, field).split_once(' ').map(|(_, words)| words.trim().to_string());
    assert!(shown(97, b"0420").starts_with("0420 ") && shown(97, b"0420").ends_with(" 4,201 to 4,210 kg"));
    assert!(shown(96, b"0420").starts_with("4200 ") && shown(96, b"0420").ends_with(" 42,001 to 42,010 kg"));
    assert_eq!(words(b"0001").as_deref(), Some("11 to 20 kg"));
    assert_eq!(words(b"0349").as_deref(), Some("3,491 to 3,500 kg"));
    assert_eq!(words(b"0350").as_deref(), Some("3,501 to 3,510 kg"));
    assert_eq!(words(b"9999").as_deref(), Some("99,991 to 100,000 kg"));
    assert_eq!(words(b"0000").as_deref(), Some("missing"));
    assert_eq!(shown(97, b"+420"), "+420");
}

/// A camper of 3,510 kg is no light vehicle; one of 3,500 kg is.
#[test]
fn campers() {
    let camper = |i: usize, tariff: &str, weight: &str| {
        let mut line = line_with(i, 46, tariff.as_bytes());
        line[96..100].copy_from_slice(weight.as_bytes());
        line
    };
    let lines = [camper(0, "12", "0350"), camper(1, "32", "0350"), camper(2, "12", "0349"), camper(3, "32", "0349")];
    let (parts, last) = explained(&sample::hgv_of(&lines), " --issuers @rows");
    let (heavy, light) = ("3,501 to 3,510 kg", "3,491 to 3,500 kg");
    let (taken, rejected) = ("taken", "rejected 12: miscellaneous");
    for (i, (verdict, words)) in
        [(rejected, heavy), (taken, heavy), (taken, light), (rejected, light)].iter().enumerate()
    {
        let part = &parts[1 + i];
        assert_eq!(part.heading, format!("line {}: {verdict}", i + 1));
        assert!(part.row("97-100", "weight").ends_with(&format!(" {words}")), "{}", part.row("97-100", "weight"));
    }
    assert!(last.starts_with("taken 2, rejected 2 of the whole file; "), "{last}");
}

/// A line for each value of a field: it has words exactly where the import takes it.
fn assert_worded_as_judged(from: usize, name: &str, values: &[Vec<u8>], is_words: fn(&str) -> bool) {
    let lines: Vec<Vec<u8>> = (0..).zip(values).map(|(i, value)| line_with(i, from, value)).collect();
    let (parts, _) = explained(&sample::hgv_of(&lines), " --issuers @rows");
    let to = from + values[0].len() - 1;
    let positions = if from == to { from.to_string() } else { format!("{from}-{to}") };
    let mut taken = 0;
    for (i, value) in values.iter().enumerate() {
        let part = &parts[1 + i];
        let is_taken = part.heading == format!("line {}: taken", i + 1);
        assert!(is_taken || part.heading == format!("line {}: rejected 12: miscellaneous", i + 1), "{}", part.heading);
        let row = part.row(&positions, name);
        let shown: String = value.iter().map(|&byte| char::from(byte)).collect();
        let words = row.strip_prefix(shown.trim()).expect("the value first").trim();
        assert_eq!(is_words(words), is_taken, "{name} {shown}: {row}");
        taken += usize::from(is_taken);
    }
    assert!(0 < taken && taken < values.len(), "{name}: {taken} taken");
}

fn numbers(width: usize) -> Vec<Vec<u8>> {
    (0..10usize.pow(width as u32)).map(|number| format!("{number:0width$}").into_bytes()).collect()
}

/// What the tables have is what L10 takes.
#[test]
fn tables_have_what_is_taken() {
    let worded: fn(&str) -> bool = |words| !words.is_empty();
    assert_worded_as_judged(46, "tariff", &numbers(2), worded);
    assert_worded_as_judged(86, "fuel", &numbers(2), worded);
    assert_worded_as_judged(92, "engine", &numbers(3), worded);
    assert_worded_as_judged(115, "separator", &numbers(2), worded);
    let bytes: Vec<Vec<u8>> = (33..=126).map(|byte| vec![byte]).collect();
    assert_worded_as_judged(88, "chargeable", &bytes, worded);
    assert_worded_as_judged(48, "class", &bytes, worded);
    assert_worded_as_judged(49, "axles", &bytes, worded);
    let classes = ["0", "1", "EEV", "eev", "Euro", "Euro0", "Euro1", "Euro2", "Euro3", "Euro4", "Euro5", "Euro6"];
    let classes = classes.into_iter().chain(["Euro7", "Euro8", "Euro9", "EURO6", "Euro 6", "00", "Euro61", " Euro6"]);
    let classes: Vec<Vec<u8>> = classes.map(|class| format!("{class:<6}").into_bytes()).collect();
    assert_worded_as_judged(80, "emission", &classes, worded);
    let times = ["20240229235959", "20230229000000", "20250310240000", "00000000000000", "00000101000000"];
    let times = times.map(|time| time.as_bytes().to_vec());
    assert_worded_as_judged(101, "Valid to", &times, |words| words != "no such time");
}

/// The words of some values that a neighbour in the table could have.
#[test]
fn words_of_values() {
    let words = |from: usize, positions: &str, name: &str, value: &str| {
        let row = only(line_with(0, from, value.as_bytes())).row(positions, name);
        row.strip_prefix(value.trim()).map(|words| words.trim().to_string())
    };
    for (from, positions, name, value, expected) in [
        (46, "46-47", "tariff", "12", "passenger vehicle below or equal to 3,500 kg (M1)"),
        (46, "46-47", "tariff", "31", "vehicle above 3,500 kg, more than 8 seats excluding driver (M2, M3)"),
        (46, "46-47", "tariff", "71", "other vehicle"),
        (80, "80-85", "emission", "0     ", "zero emission, unknown, or before the Euro classes"),
        (80, "80-85", "emission", "Euro6 ", "Euro 6 / Euro VI"),
        (86, "86-87", "fuel", "05", "electric"),
        (86, "86-87", "fuel", "10", "bio petrol"),
        (88, "88", "chargeable", "N", "no chargeable hybrid, or unknown"),
        (92, "92-94", "engine", "000", "missing"),
        (92, "92-94", "engine", "006", "battery exclusively"),
        (92, "92-94", "engine", "255", "other"),
        (95, "95-96", "CO2", "00", "missing"),
        (101, "101-114", "Valid to", "20230229000000", "no such time"),
        (101, "101-114", "Valid to", "2030123123595 ", ""),
        (115, "115-116", "separator", "30", "GS-0000"),
        (115, "115-116", "separator", "37", "GS-000-0"),
        (115, "115-116", "separator", "00", "no separator"),
        (43, "43-45", "nationality", "   ", "blank"),
        (43, "43-45", "nationality", "DE ", ""),
        (14, "14-32", "PAN", "979900120000001X   ", ""),
        (33, "33-42", "plate", "a1        ", "2 characters; small letters stand for non-Latin ones"),
        (50, "50-61", "context mark", "30C00B-00503", ""),
        (48, "48", "class", "0", "missing"),
        (49, "49", "axles", "1", "1 axle of the tractor unit"),
    ] {
        assert_eq!(words(from, positions, name, value).as_deref(), Some(expected), "{name} {value}");
    }
}

#[test]
fn lines_that_are_not_there() {
    let folder = ready();
    for (lines, number, has) in
        [(4, "5", "lines 1 to 4"), (4, "0", "lines 1 to 4"), (1, "x", "line 1 alone"), (0, "1", "no lines")]
    {
        folder.write("hgv", &sample::hgv(lines));
        let done = graftspindle(&folder, &format!("explain --line {number} @hgv"));
        assert_eq!((done.status, done.said.as_str()), (1, ""));
        let fault = format!("graftspindle: 1: --line {number} is not there: {} has {has}\n", folder.text("hgv"));
        assert_eq!(done.fault, fault);
    }
    let (parts, _) = explained(&sample::hgv(4), " --line 4");
    assert_eq!((parts.len(), parts[0].heading.as_str()), (1, "line 4"));
    assert!(parts[0].row("33-42", "plate").starts_with("GS0003 "));
}

/// The verdicts of the whole file, also where one line is shown.
#[test]
fn verdicts() {
    let hgv = sample::hgv_of(&[sample::line(0), sample::faulty_line(1), sample::line(0), sample::line(2)]);
    let verdicts = ["taken", "rejected 12: miscellaneous", "rejected 01: duplicate entry", "taken"];
    let (parts, last) = explained(&hgv, " --issuers @rows");
    for (i, verdict) in verdicts.into_iter().enumerate() {
        assert_eq!(parts[1 + i].heading, format!("line {}: {verdict}", i + 1));
        let (alone, same) = explained(&hgv, &format!(" --line {} --issuers @rows", i + 1));
        assert_eq!((&alone[0].heading, &same), (&parts[1 + i].heading, &last));
    }
    assert_eq!(
        last,
        "taken 2, rejected 2 of the whole file; the register was not asked whether it holds a PAN under another actor (L11)"
    );
    assert_eq!(parts[2].row("80-85", "emission"), "Euro9");
    let (parts, last) = explained(&sample::hgv(0), " --issuers @rows");
    assert_eq!((parts.len(), &last[..42]), (2, "taken 0, rejected 0 of the whole file; the"));
}

/// The fields are shown, and the last line has the number and its words.
#[test]
fn files_that_an_import_refuses() {
    let footer = 128 + 2 * 128 + 1;
    for (from, field, words) in [
        (2, "X", "26: a field of the HGV's header breaks its form: hgv"),
        (81, "20250230", "26: a field of the HGV's header breaks its form: hgv"),
        (95, "500001", "27: the HGV's version is neither 120001 nor 220001: hgv has 500001"),
        (
            8,
            "000003",
            "29: the HGV's receiver is not 000002, or no issuer row has its sender: hgv: its receiver is 000003",
        ),
        (66, "000000000000003", "30: the HGV's count differs from its number of lines: hgv says 3 and has 2 lines"),
        (footer, "3", "31: the HGV's footer breaks its form: hgv"),
        (129, "2", "32: a line of the HGV lacks 1 in front or LF at its end, or has a byte below 32: hgv"),
    ] {
        for options in ["", " --issuers @rows", " --line 2"] {
            let (parts, last) = explained(&file_with(from, field.as_bytes()), options);
            assert_eq!(last, format!("an import would refuse this file: {words}"));
            assert_eq!(parts.len(), if options == " --line 2" { 1 } else { 4 });
            assert!(parts.iter().all(|part| !part.heading.contains(':')), "no verdict");
        }
    }
    let (parts, _) = explained(&file_with(81, b"20250230"), "");
    assert_eq!(parts[0].row("81-94", "creation"), format!("20250230040000{}no such time", " ".repeat(15)));
    let (parts, _) = explained(&file_with(14, b"HGV9001232025023001"), "");
    assert!(parts[0].row("14-32", "list sequence").ends_with("list 01 of 900123, no such day"));
    let (parts, _) = explained(&file_with(footer, b"3"), "");
    assert_eq!(parts[3].row("1", "register identifier"), "3");
}

/// Nothing can be shown where no line has a place, and the rows are no part of the file.
#[test]
fn refusals() {
    let folder = ready();
    let refused = |line: &str, status: i32, words: &str| {
        let done = graftspindle(&folder, line);
        assert_eq!((done.status, done.said.as_str()), (status, ""), "{line}");
        assert!(
            done.fault.starts_with(&format!("graftspindle: {status}: ")) && done.fault.contains(words),
            "{}",
            done.fault
        );
    };
    folder.write("short", &sample::hgv(2)[1..]);
    refused("explain @short", 25, "has 447 bytes");
    refused("explain --line 1 --issuers @rows @short", 25, "has 447 bytes");
    folder.write("wrong", b"979900        061690012X");
    refused("explain --issuers @wrong @hgv", 24, &folder.text("wrong"));
    refused("explain --issuers - -", 1, "standard input");
    refused("explain @absent", 1, "absent");
    refused("explain", 1, "usage: graftspindle explain [--line N] [--issuers ROWS] HGV");
    folder.write("other", b"979900        0616900124");
    let done = graftspindle(&folder, "explain --line 1 --issuers @other @hgv");
    assert_eq!(done.status, 0);
    let last = done.said.lines().last().expect("a line");
    assert!(last.starts_with("an import would refuse this file: 29: ") && last.contains("no row of 900123"), "{last}");
}

#[test]
fn standard_input() {
    let folder = ready();
    let line = "explain --line 4 --issuers @rows @hgv";
    let mut command = Command::new(program());
    command.args(words(&folder, &line.replace("@hgv", "-"))).stdin(File::open(folder.path("hgv")).expect("a file"));
    let done = ran(command.output().expect("the command runs"));
    assert_eq!((done.status, &done.said), (0, &graftspindle(&folder, line).said));
    assert!(done.said.starts_with("line 4: rejected 12: miscellaneous\n"), "{}", done.said);
}

#[test]
fn largest_file() {
    let (parts, last) = explained(&sample::hgv(8192), " --issuers @rows");
    assert_eq!((parts.len(), parts[8192].heading.as_str()), (8194, "line 8192: taken"));
    assert!(parts[0].row("66-80", "count").ends_with(" 8,192 lines"));
    assert!(last.starts_with("taken 8192, rejected 0 of the whole file; "), "{last}");
}

/// One column for each byte, whatever it is.
#[test]
fn bytes_that_are_no_ascii() {
    let part = only(line_with(0, 33, b"\xc4B4711\xf6\xfc\xe5\xd8"));
    assert_eq!(part.row("33-42", "plate").split_once(' ').map(|(plate, _)| plate), Some("ÄB4711öüåØ"));
    assert_eq!(&part.text.chars().skip(32).take(10).collect::<String>(), "ÄB4711öüåØ");
    let (parts, last) = explained(&sample::hgv_of(&[line_with(0, 33, b"A\x01\n\x1b\x7f\x80\xadB  ")]), "");
    assert!(parts[1].row("33-42", "plate").starts_with("A?␊????B "), "{:?}", parts[1].rows);
    assert!(parts[1].text.contains("A?␊????B  DE 31") && parts[1].text.chars().count() == 128);
    assert!(last.starts_with("an import would refuse this file: 32: "), "{last}");
}

fn json(hgv: &[u8], options: &str) -> String {
    let folder = ready();
    folder.write("hgv", hgv);
    let done = graftspindle(&folder, &format!("explain --json{options} @hgv"));
    assert_eq!((done.status, done.fault.as_str(), done.said.lines().count()), (0, "", 1));
    done.said.replace(&folder.text(""), "")
}

#[test]
fn fields_as_json() {
    let told = json(&sample::hgv_of(&[LINE]), "");
    assert!(
        told.starts_with("{\"status\":0,\"header\":[{\"from\":1,\"to\":1,\"name\":\"register identifier\","),
        "{told}"
    );
    let weight = r#"{"from":97,"to":100,"name":"weight","value":"0420","words":"4,201 to 4,210 kg"}"#;
    assert_eq!(told.matches(weight).count(), 1);
    assert!(told.contains(r#""lines":[{"line":1,"fields":[{"from":1,"#) && told.ends_with(",\"refused\":null}\n"));
    let values = told.split("\"value\":\"").skip(1).map(|rest| rest.split_once("\",\"words\":").expect("words").0);
    let whole: String = values.collect();
    assert_eq!(whole.replace("\\u000a", "\n").into_bytes(), sample::hgv_of(&[LINE]));
    let plate = json(&sample::hgv_of(&[line_with(0, 33, b"\xc4\x01  ")]), " --line 1");
    assert!(plate.starts_with(r#"{"status":0,"lines":[{"line":1,"fields":["#) && !plate.contains("header\":["));
    assert!(plate.contains("\"name\":\"plate\",\"value\":\"Ä\\u0001  00    \""), "{plate}");
    assert!(plate.contains(r#""refused":{"number":32,"words":"a line of the HGV lacks 1 "#), "{plate}");
}

#[test]
fn verdicts_as_json() {
    let told = json(&sample::hgv_of(&[sample::line(0), sample::faulty_line(1)]), " --issuers @rows");
    assert!(told.contains(r#"{"line":1,"taken":true,"reason":null,"fields":["#), "{told}");
    assert!(told.contains(r#"{"line":2,"taken":false,"reason":12,"fields":["#), "{told}");
    assert!(told.contains(r#""name":"emission","value":"Euro9 ","words":null}"#), "{told}");
    assert!(told.ends_with(",\"refused\":null,\"taken\":1,\"rejected\":1}\n"), "{told}");
}
