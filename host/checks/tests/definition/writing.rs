//! The writer on the generator's givings: all implementations write the same bytes, these read by the document's positions
//! are the fields given, and an import takes every line but those whose PAN another holds.

use crate::common::*;
use graftspindle_checks::generate::{giving, large_giving, Giving};
use graftspindle_checks::plain::register::SLOT;
use graftspindle_checks::plain::{causes_of_61, Cause};
use graftspindle_checks::sample::account_of;

/// A field by its first and last position.
fn at(text: &[u8], from: usize, to: usize) -> &[u8] {
    &text[from - 1..to]
}

fn number_at(text: &[u8], from: usize, to: usize) -> u64 {
    let digits = std::str::from_utf8(at(text, from, to)).expect("digits");
    digits.parse().expect("a number")
}

fn assert_header(file: &[u8], g: &Giving) {
    let fields: [(usize, usize, &[u8]); 12] = [
        (1, 1, b"0"),
        (2, 7, &g.sender),
        (8, 13, b"000002"),
        (14, 16, b"HGV"),
        (17, 22, &g.sender),
        (23, 30, &g.date),
        (33, 51, &g.previous),
        (52, 65, &[b'0'; 14]),
        (81, 94, &g.creation),
        (101, 127, &[b'0'; 27]),
        (128, 128, b"\n"),
        (file.len() - 63, file.len(), &footer()),
    ];
    for (from, to, field) in fields {
        assert_eq!(at(file, from, to), field, "{from}-{to}");
    }
    assert_eq!(number_at(file, 31, 32), g.number);
    assert_eq!(number_at(file, 66, 80), g.accounts.len() as u64 / 100);
    assert_eq!(number_at(file, 95, 100), g.version);
}

fn assert_line(line: &[u8], sender: &[u8], account: &[u8]) {
    assert_eq!(account_of(line), account);
    let rest: [(usize, usize, &[u8]); 6] = [
        (1, 1, b"1"),
        (2, 7, sender),
        (8, 13, b"      "),
        (89, 91, b"   "),
        (117, 127, b"00000000000"),
        (128, 128, b"\n"),
    ];
    for (from, to, field) in rest {
        assert_eq!(at(line, from, to), field, "{from}-{to}");
    }
}

fn lines(file: &[u8]) -> std::slice::Chunks<'_, u8> {
    file[128..file.len() - 64].chunks(128)
}

/// What is read back is what was given.
fn assert_fields(file: &[u8], g: &Giving) {
    assert_header(file, g);
    assert_eq!(lines(file).count(), g.accounts.len() / 100);
    lines(file).zip(g.accounts.chunks(100)).for_each(|(line, account)| assert_line(line, &g.sender, account));
}

/// All lines are taken into as many free slots, each as it stands but for its end.
fn assert_taken(file: &[u8], g: &Giving) {
    let n = lines(file).count();
    let outcome = of_all(|engine| run(engine, 1, R0, &free(n), &g.rows, file, 174));
    assert_eq!((outcome.answer.number, outcome.answer.taken, outcome.answer.rejected), (0, n as u64, 0));
    for (slot, line) in outcome.register.chunks(SLOT).zip(lines(file)) {
        assert!(slot[..100] == line[..100] && slot[114..128] == line[114..] && slot[128..147] == file[13..32]);
    }
}

/// The records of the PANs that somebody holds.
fn held(file: &[u8], g: &Giving) -> Vec<u8> {
    let of_holder = |(line, holder): (&[u8], &Option<Vec<u8>>)| holder.as_ref().map(|actor| slot(with(line, 2, actor)));
    lines(file).zip(&g.holders).filter_map(of_holder).flatten().collect()
}

/// Where another holds the PAN the line is 04, and every other is taken. How many are 04.
fn assert_held(file: &[u8], g: &Giving) -> usize {
    let register = [held(file, g), free(g.holders.len())].concat();
    let told = of_all(|engine| {
        let outcome = run(engine, 1, R0, &register, &g.rows, file, 174 + 130 * g.holders.len());
        verdicts(engine, file, &outcome)
    });
    let expected = g.holders.iter().map(|holder| if holder.as_ref().is_some_and(|h| *h != g.sender) { 4 } else { 0 });
    assert!(told.iter().copied().eq(expected));
    told.iter().filter(|&&verdict| verdict == 4).count()
}

/// L2 is not among them: the actor is the sender.
fn line_causes() -> impl Iterator<Item = Cause> {
    [1, 3, 4, 5, 6, 7, 8, 9, 10].into_iter().map(Cause::Line)
}

#[test]
fn givings() {
    let (mut numbers, mut causes, mut alone) = (Counts::new(), Counts::new(), Counts::new());
    let (mut versions, mut of_others) = (Counts::new(), 0);
    for seed in 0..SEEDS {
        let g = giving(seed);
        let (number, file) = of_all(|engine| write(engine, &g.list(), g.room));
        count(&mut numbers, number);
        let told = causes_of_61(&g.list());
        assert_eq!(number == 61, !told.is_empty(), "seed {seed}");
        if let [cause] = told[..] {
            count(&mut alone, cause);
        }
        told.into_iter().for_each(|cause| count(&mut causes, cause));
        if number == 0 {
            count(&mut versions, g.version);
            assert_fields(&file, &g);
            assert_taken(&file, &g);
            of_others += assert_held(&file, &g);
        }
    }
    use Cause::*;
    let fields = [Version, Date, Number, Previous, Creation, Rows, NoRow, Length, TooMany];
    assert_reached("writer's numbers", &numbers, vec![0, 61, 62, 63]);
    assert_reached("causes of 61", &causes, fields.into_iter().chain([Sender]).chain(line_causes()).collect());
    // A sender that is not six digits has no row.
    assert_reached("causes of 61, alone", &alone, fields.into_iter().chain(line_causes()).collect());
    assert_reached("versions written", &versions, vec![120001, 220001]);
    println!("lines written whose PAN another holds: {of_others}");
    assert!(of_others >= 1000);
}

#[test]
fn large_givings() {
    let (mut numbers, mut largest) = (Counts::new(), 0);
    for seed in 0..40 {
        let g = large_giving(seed);
        largest += u64::from(g.accounts.len() == 819_200);
        let (number, file) = of_all(|engine| write(engine, &g.list(), g.room));
        count(&mut numbers, number);
        if number == 0 {
            assert_fields(&file, &g);
            assert_eq!(of_all(|engine| write(engine, &g.list(), g.room - 1)).0, 63);
        }
    }
    assert_reached("numbers of large lists", &numbers, vec![0, 62]);
    println!("lists of 8,192 accounts: {largest}");
    assert!(largest >= 5);
}
