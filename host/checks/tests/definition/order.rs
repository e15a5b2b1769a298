//! For each two stops of an order, an input where both apply: the first answers.

use crate::common::*;
use graftspindle_checks::plain::register::SLOT;

struct Input {
    mode: u64,
    reception: Vec<u8>,
    offset: i64,
    register: Vec<u8>,
    rows: Vec<u8>,
    hgv: Vec<u8>,
    hgc: Vec<u8>,
    room: usize,
    /// By how many numbers the index is shorter than the slots.
    lacking: usize,
}

/// One line, taken into one slot; buffer or verdict block just long enough.
fn right(room: usize) -> Input {
    Input {
        mode: 1,
        reception: R0.to_vec(),
        offset: 0,
        register: free(1),
        rows: ROW0.to_vec(),
        hgv: hgv(&[x()]),
        hgc: hgc(1, &[]),
        room,
        lacking: 0,
    }
}

/// Of three records one line is too thin.
fn three_held() -> Vec<u8> {
    slots([x(), y(), with(LINE0, 14, b"9799001200000028")])
}

fn apply(number: u64, input: &mut Input) {
    match number {
        21 => input.mode = 3,
        22 => input.reception = b"2".to_vec(),
        23 => input.register.push(0),
        24 => input.rows.push(b'0'),
        25 => input.hgv.push(b'0'),
        26 => input.hgv[0] = b'9',
        27 => input.hgv[94..100].copy_from_slice(b"500001"),
        28 => (input.mode, input.hgv[94]) = (2, b'2'),
        29 => input.hgv[12] = b'3',
        30 => input.hgv[79] = b'2',
        31 => input.hgv[256] = b'3',
        32 => input.hgv[128] = b'2',
        33 => input.register = slot(y()),
        34 | 53 => input.room -= 1,
        35 => (input.mode, input.register) = (2, three_held()),
        36 => input.lacking = 1,
        51 => input.register = slot(with(&y(), 2, b"900124")),
        52 => input.hgc.push(b'0'),
        _ => unreachable!(),
    }
}

/// What puts a fault into an input.
type Apply = fn(u64, &mut Input);

/// 22, and the update's 52, by an offset out of range.
fn apply_by_offset(number: u64, input: &mut Input) {
    match number {
        22 | 52 => input.offset = 841,
        other => apply(other, input),
    }
}

/// The same by a year that is none, by the clock that is not given.
fn apply_by_year(number: u64, input: &mut Input) {
    match number {
        22 => (input.reception, input.offset) = (b"99991231235959".to_vec(), 1),
        52 => {
            input.hgc[32..46].copy_from_slice(b"00010101000000");
            input.offset = 1;
        }
        other => apply(other, input),
    }
}

const WAYS: [Apply; 3] = [apply, apply_by_offset, apply_by_year];

/// The later fault is put in first, so that the earlier one stays whole.
fn assert_order(order: &[u64], room: usize, apply: Apply, answer: impl Fn(Input) -> u64) {
    assert_eq!(answer(right(room)), 0);
    for (place, &first) in order.iter().enumerate() {
        for second in order[place..].iter() {
            let mut input = right(room);
            apply(*second, &mut input);
            if first != *second {
                apply(first, &mut input);
            }
            assert_eq!(answer(input), first, "{first} before {second}");
        }
    }
}

#[test]
fn import_order() {
    let order = [21, 22, 23, 24, 25, 26, 27, 28, 29, 30, 31, 32, 35, 33, 34];
    for (engine, apply) in ENGINES.iter().flat_map(|engine| WAYS.map(|apply| (engine, apply))) {
        assert_order(&order, 174, apply, |i| {
            let Input { mode, reception, offset, register, rows, hgv, room, .. } = &i;
            let given = Given { mode: *mode, reception, offset: *offset, rows, hgv, room: *room };
            run_given(engine, register, &given).answer.number
        });
    }
}

/// The same with 36 at its place, which no other import has.
#[test]
fn indexed_import_order() {
    let order = [21, 22, 23, 24, 36, 25, 26, 27, 28, 29, 30, 31, 32, 35, 33, 34];
    for (engine, apply) in indexed().flat_map(|engine| WAYS.map(|apply| (engine, apply))) {
        assert_order(&order, 174, apply, |i| {
            let Input { mode, reception, offset, register, rows, hgv, room, .. } = &i;
            let given = Given { mode: *mode, reception, offset: *offset, rows, hgv, room: *room };
            let mut index = vec![0; register.len() / SLOT - i.lacking];
            run_indexed(engine, register, &given, &mut index).answer.number
        });
    }
}

#[test]
fn read_back_order() {
    for engine in ENGINES {
        assert_order(&[25, 26, 27, 29, 30, 31, 32, 52, 53], 1, apply, |i| {
            let mut block = vec![0xEE; i.room];
            let answer = (engine.read_back)(&i.hgv, &i.hgc, &mut block);
            assert!(answer.number == 0 || block.iter().all(|&b| b == 0xEE));
            answer.number
        });
    }
}

#[test]
fn update_order() {
    let order = [21, 23, 25, 26, 27, 28, 29, 51, 30, 31, 32, 52, 33];
    for (engine, apply) in ENGINES.iter().flat_map(|engine| WAYS.map(|apply| (engine, apply))) {
        assert_order(&order, 0, apply, |i| {
            let mut copy = i.register.clone();
            let answer = (engine.update)(i.mode, i.offset, &mut copy, &i.hgv, &i.hgc);
            assert!(answer.number == 0 || copy == i.register);
            answer.number
        });
    }
}

#[test]
fn sweep_order() {
    for engine in ENGINES {
        assert_order(&[22, 23], 0, apply, |i| sweep(engine, &i.register, &i.reception).0.number);
    }
}
