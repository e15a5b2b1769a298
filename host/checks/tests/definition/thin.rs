//! 35: "In mode 2, if twice the taken lines is less than the records held for the sender, stop. The provider's own update
//! doesn't use it."

use crate::common::*;
use graftspindle::raw::Counted;
use graftspindle_checks::generate::case;
use graftspindle_checks::plain::register::SLOT;
use graftspindle_checks::plain::rules_broken;
use graftspindle_checks::sample;

/// The sender's lines from one account to before another, each with a PAN of its own.
fn accounts(from: usize, to: usize) -> Vec<Vec<u8>> {
    (from..to).map(|i| with(LINE0, 14, sample::pan(i).as_bytes())).collect()
}

/// Records that have ended before R0.
fn ended(from: usize, to: usize) -> Vec<Vec<u8>> {
    accounts(from, to).iter().map(|record| with(record, 101, b"20240101000000")).collect()
}

fn of_another(from: usize, to: usize) -> Vec<Vec<u8>> {
    accounts(from, to).iter().map(|record| with(record, 2, b"900124")).collect()
}

/// What all answer at R0 to these lines in a register of these records, with a slot for each line and room enough.
fn answered(mode: u64, records: &[Vec<u8>], lines: &[Vec<u8>]) -> Outcome {
    let register = [slots(records), free(lines.len())].concat();
    of_all(|engine| run(engine, mode, R0, &register, ROW0, &hgv(lines), 174 + 130 * lines.len()))
}

fn number(mode: u64, records: &[Vec<u8>], lines: &[Vec<u8>]) -> u64 {
    answered(mode, records, lines).answer.number
}

/// The night job: eleven lines pass where at most 22 accounts are held.
#[test]
fn eleven_lines() {
    let sent = accounts(0, 11);
    assert_eq!(number(2, &accounts(0, 22), &sent), 0);
    assert_eq!(number(2, &accounts(0, 22), &sent[1..]), 35);
    assert_eq!(number(2, &accounts(0, 23), &sent), 35);
    assert_eq!(number(2, &accounts(0, 21), &sent), 0);
    assert_eq!(number(2, &accounts(0, 4), &sent[..2]), 0);
    assert_eq!(number(2, &accounts(0, 4), &sent[..1]), 35);
    let left = answered(2, &accounts(0, 22), &sent);
    assert_eq!(left.register, [slots(&sent), free(22)].concat());
}

/// Whether the accounts are held or new, and whether other providers have records plays no part; mode 1 never stops.
#[test]
fn every_number_of_records_and_lines() {
    let mut numbers = Counts::new();
    for held in 0..=40 {
        let records = [of_another(100, 102), accounts(0, held), of_another(102, 103)].concat();
        for taken in 0..=held {
            let again = number(2, &accounts(0, held), &accounts(0, taken));
            assert_eq!(again, if taken + taken < held { 35 } else { 0 }, "{held} held, {taken} taken");
            assert_eq!(number(2, &records, &accounts(held, held + taken)), again);
            assert_eq!(number(1, &records, &accounts(0, taken)), 0);
            assert_eq!(number(1, &accounts(0, held), &accounts(held, held + taken)), 0);
            count(&mut numbers, again);
        }
    }
    assert_eq!(numbers, Counts::from([(0, 441), (35, 420)]));
}

#[test]
fn ended_records_are_held() {
    for (held, over) in [(4, 0), (4, 4), (3, 1), (22, 22), (22, 7)] {
        let records = [ended(0, over), accounts(over, held)].concat();
        let half = usize::div_ceil(held, 2);
        assert_eq!(number(2, &records, &accounts(0, half)), 0);
        assert_eq!(number(2, &records, &accounts(0, half - 1)), 35);
        assert_eq!(number(2, &records, &accounts(held - half + 1, held)), 35);
        // A line of an ended account is taken as any other.
        assert_eq!(number(2, &records, &ended(0, half)), 0);
    }
}

#[test]
fn other_actors_records_are_not_held() {
    for others in [1, 5, 30] {
        assert_eq!(number(2, &of_another(0, others), &[]), 0);
        let records = [accounts(50, 52), of_another(0, others), accounts(52, 54)].concat();
        assert_eq!(number(2, &records, &accounts(50, 52)), 0);
        assert_eq!(number(2, &records, &accounts(50, 51)), 35);
    }
}

/// By rules of their own, by another's record, by an earlier line.
#[test]
fn rejected_lines_are_not_taken() {
    let faulty: Vec<Vec<u8>> = accounts(2, 9).iter().map(|line| with(line, 80, b"Euro9 ")).collect();
    let held = [accounts(0, 4), of_another(30, 40)].concat();
    for rejected in [faulty, accounts(30, 40), vec![accounts(0, 1); 9].concat()] {
        assert_eq!(number(2, &held, &[accounts(0, 1), rejected.clone()].concat()), 35);
        let passes = answered(2, &held, &[accounts(0, 2), rejected.clone()].concat());
        assert_eq!((passes.answer.taken, passes.answer.rejected), (2, rejected.len() as u64));
    }
}

/// Nothing held is never too thin; an empty list is, where one record is held.
#[test]
fn empty_list() {
    assert_eq!(number(2, &[], &[]), 0);
    assert_eq!(number(2, &[], &[bad()]), 0);
    assert_eq!(number(2, &[x()], &[]), 35);
    assert_eq!(number(2, &[x()], &[bad()]), 35);
    assert_eq!(number(2, &[x()], &[x()]), 0);
    assert_eq!(number(2, &[x()], &[y()]), 0);
    assert_eq!(number(1, &[x()], &[]), 0);
}

/// 35 goes before 34, and neither is given where 33 is: then more lines are taken than records go.
#[test]
fn between_32_and_34() {
    for (held, taken) in [(1, 0), (3, 1), (4, 1), (22, 10)] {
        let (register, file) = (slots(accounts(0, held)), hgv(&accounts(0, taken)));
        for room in [0, 173, 174] {
            assert_eq!(of_all(|e| run(e, 2, R0, &register, ROW0, &file, room)).answer.number, 35);
        }
        let stands = with(&file, file.len(), b" ");
        assert_eq!(of_all(|e| run(e, 2, R0, &register, ROW0, &stands, 174)).answer.number, 31);
        let more = hgv(&accounts(0, held + 1));
        assert_eq!(of_all(|e| run(e, 2, R0, &register, ROW0, &more, 0)).answer.number, 33);
    }
    let frame = with(&hgv(&accounts(0, 1)), 256, b" ");
    assert_eq!(of_all(|e| run(e, 2, R0, &slots(accounts(0, 4)), ROW0, &frame, 173)).answer.number, 32);
}

/// One byte changed. An actor's digit changes in his list too, since a record is stamped by a list of its actor.
fn changed(register: &[u8], at: usize, value: u8) -> Vec<u8> {
    let of_actor = (1..7).contains(&(at % SLOT));
    let mut changed = with(register, at + 1, &[value]);
    changed[if of_actor { at + 130 } else { at }] = value;
    changed
}

/// One account of three is sent again. A record more of another actor, and it is one of two; unless that is the account sent,
/// which then is rejected.
#[test]
fn every_changed_byte_of_the_records() {
    let (register, file) = (slots([x(), y(), accounts(5, 6).concat()]), hgv(&[y()]));
    let mut numbers = Counts::new();
    for at in 0..register.len() {
        for value in 0..=255 {
            let changed = changed(&register, at, value);
            count(&mut numbers, of_all(|e| run(e, 2, R0, &changed, ROW0, &file, 304)).answer.number);
        }
    }
    // A digit of the actor of a record whose account is not sent.
    assert_eq!(numbers[&0], 2 * 6 * 9);
    assert_reached("numbers of a changed register", &numbers, vec![0, 23, 35]);
}

/// A pair that takes fewer than half of the copy's records is applied.
#[test]
fn none_in_an_update() {
    for held in 0..=9 {
        for taken in 0..=held {
            let lines = accounts(0, taken);
            let applied = of_all(|engine| {
                let mut copy = slots(accounts(0, held));
                let answer = (engine.update)(2, 0, &mut copy, &hgv(&lines), &hgc(taken, &[]));
                assert_eq!(copy, [slots(&lines), free(held - taken)].concat(), "{}", engine.name);
                answer
            });
            assert_eq!(applied, Counted { number: 0, taken: taken as u64, rejected: 0 });
        }
    }
}

/// The sender's records in a register.
fn held_in(register: &[u8], sender: &[u8]) -> usize {
    register.chunks_exact(SLOT).filter(|slot| slot[0] == b'1' && &slot[1..7] == sender).count()
}

/// Twice the taken lines beside the records held: by how many they differ, as far as two either way.
fn beside_half(register: &[u8], rows: &[u8], file: &[u8]) -> i64 {
    let taken = rules_broken(register, rows, file).iter().filter(|&&rule| rule == 0).count();
    (2 * taken as i64 - held_in(register, &file[1..7]) as i64).clamp(-2, 2)
}

/// The generator's full lists, on both sides of the half, with and without other providers' records.
#[test]
fn about_half() {
    let mut reached = Counts::new();
    for seed in 0..SEEDS / 4 {
        let c = case(seed);
        let answered = of_all(|e| run_given(e, &c.register, &Given::of_case(&c))).answer;
        if c.mode != 2 || !matches!(answered.number, 0 | 33..=35) || held_in(&c.register, &c.hgv[1..7]) == 0 {
            continue;
        }
        let beside = beside_half(&c.register, &c.rows, &c.hgv);
        assert_eq!(answered.number == 35, beside < 0, "seed {seed}");
        let used = c.register.chunks(SLOT).filter(|slot| slot[0] == b'1').count();
        count(&mut reached, (beside, used > held_in(&c.register, &c.hgv[1..7])));
    }
    let expected = (-2..=2).flat_map(|beside| [(beside, false), (beside, true)]).collect();
    assert_reached("twice the taken lines less the records held, others' records there", &reached, expected);
}

/// A thin list between files that are accepted: neither our records nor the provider's copy have anything of it.
#[test]
fn between_accepted_files() {
    let steps: [(u64, Vec<Vec<u8>>, u64); 9] = [
        (2, accounts(0, 4), 0),
        (2, accounts(0, 1), 35),
        (2, vec![], 35),
        (1, accounts(4, 6), 0),
        (2, accounts(0, 2), 35),
        (2, accounts(1, 4), 0),
        (2, [accounts(0, 1), vec![bad(); 3]].concat(), 35),
        (2, accounts(7, 9), 0),
        (2, accounts(8, 9), 0),
    ];
    for engine in ENGINES {
        let (mut register, mut copy) = ([slots(of_another(30, 33)), free(6)].concat(), free(9));
        for (mode, lines, expected) in &steps {
            let outcome = run(engine, *mode, R0, &register, ROW0, &hgv(lines), 174 + 130 * lines.len());
            assert_eq!(outcome.answer.number, *expected, "{}", engine.name);
            if outcome.answer.number == 0 {
                assert_eq!((engine.update)(*mode, 0, &mut copy, &hgv(lines), &outcome.hgc).number, 0);
            }
            register = outcome.register;
            assert_eq!(copy, copy_expected(&register, b"900123"));
        }
        assert_eq!(register, [slots(of_another(30, 33)), slots(accounts(8, 9)), free(5)].concat());
    }
}
