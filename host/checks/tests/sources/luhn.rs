//! docs/LUHN.md: its rows are the card manual's and the source's, and each worked sum is right.

use graftspindle_checks::lists::DOUBLED;
use graftspindle_checks::plain::line::luhn_sum;
use graftspindle_checks::sources::{root, text};

fn page() -> String {
    text(&root().join("docs/LUHN.md"))
}

/// What stands behind this word at the beginning of a line, for each such line.
fn behind<'a>(page: &'a str, word: &str) -> Vec<&'a str> {
    page.lines().filter_map(|line| line.strip_prefix(&format!("{word:<10}"))).collect()
}

/// Digits with a blank between each two: their values.
fn digits(row: &str) -> Vec<u32> {
    row.split(' ').map(|digit| digit.parse().unwrap_or_else(|_| panic!("{row}"))).collect()
}

#[test]
fn rows_are_the_manuals_and_the_sources() {
    let page = page();
    assert_eq!(digits(behind(&page, "digit")[0]), Vec::from_iter(0..10));
    assert_eq!(digits(behind(&page, "counts")[0]), DOUBLED);
    let row = DOUBLED.map(|entry| entry.to_string()).join(", ");
    let line = format!("table: [{row}],");
    assert!(page.contains(&format!("\n        {line}\n")), "the page has another line than {line}");
    assert!(
        text(&root().join("crates/pans/src/lib.rt")).contains(&format!("\n    {line}\n")),
        "the source has no {line}"
    );
}

#[test]
fn each_sum_is_right() {
    let page = page();
    let (marks, pans, counts) = (behind(&page, "doubled"), behind(&page, "PAN"), &behind(&page, "counts")[1..]);
    assert_eq!((marks.len(), pans.len(), counts.len()), (5, 5, 5));
    for ((marks, pan), counted) in marks.iter().zip(&pans).zip(counts) {
        let (counts, sum) = counted.split_once("    sum ").unwrap_or_else(|| panic!("{counted}"));
        let (values, counts) = (digits(pan), digits(counts));
        assert_eq!(values.len(), counts.len(), "{pan}");
        for (at, (&value, &count)) in values.iter().zip(&counts).enumerate() {
            let is_doubled = (values.len() - 1 - at) % 2 == 1;
            assert_eq!(marks.as_bytes().get(2 * at) == Some(&b'*'), is_doubled, "{pan}, digit {}", at + 1);
            assert_eq!(count, if is_doubled { DOUBLED[value as usize] } else { value }, "{pan}, digit {}", at + 1);
        }
        let whole = luhn_sum(pan.replace(' ', "").as_bytes());
        let verdict = if whole.is_multiple_of(10) { "passes" } else { "rejected, 02" };
        assert_eq!(sum, format!("{whole}: {verdict}"), "{pan}");
        assert_eq!(u64::from(counts.iter().sum::<u32>()), whole, "{pan}");
    }
}

/// The one with an odd number of digits, as if it had an even one.
#[test]
fn other_sum_is_right() {
    let page = page();
    let odd: Vec<&str> = behind(&page, "PAN").into_iter().filter(|pan| digits(pan).len() % 2 == 1).collect();
    assert_eq!(odd.len(), 1);
    let sum: u32 = digits(odd[0]).chunks(2).map(|two| DOUBLED[two[0] as usize] + two.get(1).unwrap_or(&0)).sum();
    assert!(page.contains(&format!("its sum would be {sum}.")), "{sum}");
}
