//! The lookups by PAN and by plate.

use crate::common::*;
use graftspindle_checks::plain::register::SLOT;

const PLATE: &[u8] = b"ABC123    ";
const NO: &[u8] = b"NO ";

#[test]
fn by_pan() {
    let register = [slots([x(), with(&y(), 101, b"20200101000000")]), free(1)].concat();
    let cases: [(&[u8], u64); 8] = [
        (b"9799001200000002   ", 0),
        (PAN2, 0),
        (b"9799001200000003   ", 41),
        (b"9799001200000028   ", 41),
        (b"9799001200000002  ", 40),
        (b"9799001200000002    ", 40),
        (b"                   ", 40),
        (b"", 40),
    ];
    for engine in ENGINES {
        for (pan, number) in cases {
            let (answer, part) = (engine.by_pan)(&register, pan);
            assert_eq!(answer, number);
            match number {
                0 => assert_eq!(&register[part][13..32], pan),
                _ => assert_eq!(part, 0..0),
            }
        }
        assert_eq!((engine.by_pan)(&[0; 5], b"123456789012345678"), (23, 0..0));
    }
}

#[test]
fn by_plate() {
    let ended = slot(with(LINE0, 101, b"20250310050000"));
    let register = [ended.clone(), slot(y()), free(1)].concat();
    let both = slots([x(), y()]);
    for engine in ENGINES {
        let ask = |register: &[u8], time: &[u8]| (engine.by_plate)(register, PLATE, NO, time);
        assert_eq!(ask(&register, R0), (0, SLOT..2 * SLOT));
        assert_eq!(ask(&register, b"20250310045959"), (42, 0..0));
        assert_eq!(ask(&ended, R0), (41, 0..0));
        assert_eq!(ask(&ended, b"20250310045959"), (0, 0..SLOT));
        assert_eq!(ask(&both, R0), (42, 0..0));
        assert_eq!((engine.by_plate)(&both, b"abc123    ", NO, R0).0, 41);
        assert_eq!((engine.by_plate)(&both, PLATE, b"SE ", R0).0, 41);
    }
}

#[test]
fn by_plate_refusals_in_order() {
    for engine in ENGINES {
        let ask = |register: &[u8], plate: &[u8], nationality: &[u8], time: &[u8]| {
            let (number, part) = (engine.by_plate)(register, plate, nationality, time);
            assert_eq!(part, 0..0);
            number
        };
        assert_eq!(ask(&[0; 5], b"", b"", &R0[..13]), 22);
        assert_eq!(ask(&[0; 5], b"", b"", R0), 23);
        for (plate, nationality) in [
            (&PLATE[..9], NO),
            (b"ABC123     ", NO),
            (b"          ", NO),
            (b"ABC-123   ", NO),
            (PLATE, b"   "),
            (PLATE, b"NOR"),
            (PLATE, b"NO"),
            (PLATE, b"NO  "),
            (b"", b""),
        ] {
            assert_eq!(ask(&slot(x()), plate, nationality, R0), 40);
        }
    }
}
