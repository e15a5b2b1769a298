//! The rules L1 to L12, each side.

use crate::common::*;
use graftspindle_checks::plain::line::is_plate_character;
use std::slice;

fn assert_field_of(line: &[u8], from: usize, fields: &[&[u8]], reason: u8) {
    for field in fields {
        let line = with(line, from, field);
        for verdicts in verdicts_under(ROW0, slice::from_ref(&line)) {
            assert_eq!(verdicts, [reason], "{}", line.escape_ascii());
        }
    }
}

fn assert_field(from: usize, fields: &[&[u8]], reason: u8) {
    assert_field_of(LINE0, from, fields, reason);
}

#[test]
fn line0_is_taken_and_67_characters_are_allowed() {
    assert_eq!(LINE0.len(), 128);
    assert_verdicts(&[x()], &[0]);
    assert_eq!((0..=255u8).filter(|&b| is_plate_character(b)).count(), 67);
}

#[test]
fn pan_and_actor() {
    assert_field(14, &[b"                   ", b"9799001200000002  1", b"979900120000000\xB2"], 3);
    assert_field(2, &[b"90012A", b"900124"], 4);
    assert_field(14, &[b"979900             ", b"1111111200000002"], 4);
    assert_field(14, &[b"97990012000000020  "], 3);
    assert_field(14, &[b"9799001200000003"], 2);
    let both = with(&with(LINE0, 14, b"9799001200000003"), 43, b"   ");
    assert_verdicts(&[both], &[2]);
}

#[test]
fn plate_nationality_marks() {
    assert_field(33, &[b"ABC12\xF6", b"ABC12\xF9", b"          ", b"ABC 23"], 9);
    assert_field(33, &[b"ABC12\xFC", b"abc123"], 0);
    assert_field(43, &[b"   "], 6);
    assert_field(43, &[b"NO\xA0", b"\xC4X ", b"no ", b" NO", b"NO1"], 9);
    assert_field(33, &[b"             "], 9);
    assert_field(50, &[b"30c00B"], 8);
    assert_field(62, &[b"30c00B", b"                  ", b"\x7F"], 5);
}

#[test]
fn vehicle_fields() {
    assert_field(8, &[b"900123"], 12);
    assert_field(48, &[b"A", b"-"], 12);
    assert_field(48, &[b"0 ", b" 0", b"99"], 0);
    assert_field(80, &[b"000000", b" Euro6", b"EURO6 ", b"Euro9 ", b"Euro8 "], 12);
    assert_field(80, &[b"0     ", b"EEV   ", b"Euro1 ", b"Euro7 "], 0);
    assert_field(86, &[b"00", b"07", b"08", b"16", b"19", b"23"], 12);
    assert_field(86, &[b"01", b"06", b"09", b"15", b"20", b"22"], 0);
    assert_field(88, &[b" ", b"y"], 12);
    assert_field(89, &[b"000"], 12);
    assert_field(92, &[b"053", b"254", b"256", b"   ", b"600"], 12);
    assert_field(92, &[b"000", b"052", b"255", b"006"], 0);
}

/// A tariff, the weights on the right side of its limits and at both ends, and those on the wrong side.
type Sides = (&'static [u8], &'static [&'static [u8]], &'static [&'static [u8]]);

const SIDES: [Sides; 8] = [
    (b"12", &[b"0000", b"0001", b"0349"], &[b"0350", b"0351", b"1199", b"1200", b"9999"]),
    (b"22", &[b"0000", b"0001", b"0349"], &[b"0350", b"0351", b"1199", b"1200", b"9999"]),
    (b"31", &[b"0000", b"0350", b"1199", b"1200", b"9999"], &[b"0001", b"0349"]),
    (b"32", &[b"0000", b"0350", b"1199", b"1200", b"9999"], &[b"0001", b"0349"]),
    (b"41", &[b"0000", b"0350", b"1199"], &[b"0001", b"0349", b"1200", b"9999"]),
    (b"51", &[b"0000", b"1200", b"9999"], &[b"0001", b"0349", b"0350", b"1199"]),
    (b"63", &[b"0000", b"0001", b"0349", b"0350", b"1199", b"1200", b"9999"], &[]),
    (b"71", &[b"0000", b"0001", b"0349", b"0350", b"1199", b"1200", b"9999"], &[]),
];

#[test]
fn weight_under_each_tariff() {
    for (tariff, right, wrong) in SIDES {
        let line = with(LINE0, 46, tariff);
        assert_field_of(&line, 97, right, 0);
        assert_field_of(&line, 97, wrong, 12);
        assert_field_of(&line, 97, &[b"    ", b" 350", b"035O", b"120 "], 12);
    }
}

/// Code 0350 covers 3,501 to 3,510 kg, 0349 covers 3,491 to 3,500: the dealer's camper is not light.
#[test]
fn camper_of_3510_kg() {
    let camper = |tariff: &[u8], code: &[u8]| with(&with(LINE0, 46, tariff), 97, code);
    assert_verdicts(&[camper(b"12", b"0350")], &[12]);
    assert_verdicts(&[camper(b"22", b"0350")], &[12]);
    assert_verdicts(&[camper(b"31", b"0350")], &[0]);
    assert_verdicts(&[camper(b"12", b"0349")], &[0]);
    for engine in ENGINES {
        let outcome = run_lines(engine, &free(2), &[camper(b"12", b"0350"), y()]);
        assert_eq!(outcome.hgc, hgc(1, &[(&camper(b"12", b"0350"), "12")]));
        assert_eq!(outcome.register, [slot(y()), free(1)].concat());
    }
}

#[test]
fn valid_to_separator() {
    assert_field(101, &[b"00000000000001", b"20230229000000", b"              "], 12);
    assert_field(101, &[b"20240229235959", b"00010101000000", b"99991231235959"], 0);
    assert_field(115, &[b"70", b"38", b"10", b"34", b"15", b"07", b"  "], 12);
    assert_field(115, &[b"00", b"30", b"60", b"37", b"35"], 0);
    assert_field(117, &[b"00000000001", b"           "], 12);
}

#[test]
fn rows_and_lengths() {
    let judged = |rows: &[u8], expected: u8| {
        for verdicts in verdicts_under(rows, &[x()]) {
            assert_eq!(verdicts, [expected], "{}", String::from_utf8_lossy(rows));
        }
    };
    judged(b"97990099      0616900123", 0);
    judged(b"979900        0617900123", 3);
    judged(b"979900        061790012397990012      0816900123", 0);
    judged(b"97990012      0816900124111111        0616900123", 4);
}

#[test]
fn form_of_rows() {
    let long = ROW0.repeat(64);
    let too_long = ROW0.repeat(65);
    let cases: [(&[u8], u64); 9] = [
        (&ROW0[..23], 24),
        (&too_long, 24),
        (&long, 0),
        (b"", 29),
        (b"979900123456780607900123", 0),
        (b"97990012      0808900123", 24),
        (b"97990012      0820900123", 24),
        (b"97990012      6 16900123", 24),
        (b"97990012      0916900123", 24),
    ];
    for engine in ENGINES {
        for (rows, number) in cases {
            assert_eq!(run(engine, 1, R0, &[], rows, &hgv(&[]), 174).answer.number, number);
        }
    }
}

#[test]
fn l11_in_both_modes() {
    let foreign = with(LINE0, 2, b"900124");
    for engine in ENGINES {
        for mode in [1, 2] {
            let before = [slot(&foreign), free(1)].concat();
            let file = hgv(&[x(), y()]);
            let outcome = run(engine, mode, R0, &before, ROW0, &file, 400);
            assert_eq!(outcome.hgc, hgc(1, &[(&x(), "04")]));
            assert_eq!(outcome.register, slots([foreign.clone(), y()]));
        }
    }
}

#[test]
fn equal_numbers_are_different_pans() {
    let rows = b"000000        0608900123000000        0609900123";
    let lines = [with(LINE0, 14, b"00000018           "), with(LINE0, 14, b"000000018          ")];
    for verdicts in verdicts_under(rows, &lines) {
        assert_eq!(verdicts, [0, 0]);
    }
}
