//! The programs' vectors, answered by the plain implementation too.

use graftspindle_checks::sources::root;
use graftspindle_checks::vectors::{first_difference, written, Difference, Samples, PROGRAMS};
use std::fs::read;

/// What a program reads and what it has to write.
fn files(program: &str) -> (Vec<u8>, Vec<u8>) {
    let folder = root().join("crates").join(program);
    let bytes = |name| read(folder.join(name)).unwrap_or_else(|fault| panic!("{program}/{name}: {fault}"));
    (bytes("stdin"), bytes("stdout"))
}

#[test]
fn plain_answers_every_vector() {
    for (program, ask) in PROGRAMS {
        let (stdin, stdout) = files(program);
        if let Some(Difference { line, vector, at, expected, answered }) = first_difference(ask, &stdin, &stdout) {
            panic!("{program}/stdin:{line}: {vector}\n{program}/stdout:{at}: {expected}\nplain: {answered}");
        }
    }
}

/// The same vector with an offset in front, where it is an import or an update.
fn with_offset(vector: &[u8], offset: &[u8]) -> Option<Vec<u8>> {
    let tags: [(&[u8], &[u8]); 2] = [(b"import   ", b"local    "), (b"update   ", b"utc      ")];
    tags.iter().find_map(|(tag, other)| Some([other, offset, b" ", vector.strip_prefix(*tag)?].concat()))
}

/// With an offset of none in front an import and an update are answered as without; and how each offset is.
#[test]
fn offsets_in_front() {
    let ((stdin, _), (_, ask)) = (files("cases_imports"), PROGRAMS[1]);
    let (mut samples, mut tried) = (Samples::none(), 0);
    for vector in stdin.split(|&b| b == b'\n') {
        let answer = written(ask, &mut samples, vector)[vector.len()..].to_vec();
        for other in [b"+0000", b"-0000"].iter().filter_map(|offset| with_offset(vector, *offset)) {
            let told = written(ask, &mut samples, &other);
            assert_eq!(told[other.len()..], answer, "{}", other.escape_ascii());
            tried += 1;
        }
    }
    assert!(tried >= 500, "{tried} vectors");
    let each = b"each     local    +#### 1 20250310050000 r F--- 0---- 0174 0000";
    for (sign, ranges) in [(b'+', "0000-0840: 0, 0841-9999: 22"), (b'-', "0000-0720: 0, 0721-9999: 22")] {
        let vector: Vec<u8> = each.iter().map(|&b| if b == b'+' { sign } else { b }).collect();
        let told = written(ask, &mut samples, &vector);
        assert_eq!(told, [&vector, format!(" -> {ranges}").as_bytes()].concat());
    }
}

/// With an index in front that is long enough an import is answered as without; with one that is not, by 36 unless it is one of 21
/// to 24; and the lengths and numbers that are read.
#[test]
fn indexes_in_front() {
    let ((stdin, _), (_, ask)) = (files("cases_imports"), PROGRAMS[1]);
    let (mut samples, mut tried, mut refused) = (Samples::none(), 0, 0);
    for vector in stdin.split(|&b| b == b'\n') {
        let answer = written(ask, &mut samples, vector)[vector.len()..].to_vec();
        let Some(given) = vector.strip_prefix(b"import   ") else { continue };
        let told = |samples: &mut Samples, index: &str| {
            let other = [b"indexed  ", index.as_bytes(), b" +0000 ", given].concat();
            written(ask, samples, &other)[other.len()..].to_vec()
        };
        for index in ["0005 00000", "0016 65535", "9999 99999", "0007 00003"] {
            assert_eq!(told(&mut samples, index), answer, "{}", vector.escape_ascii());
            tried += 1;
        }
        let none = told(&mut samples, "0000 00000");
        if none != answer {
            assert_eq!(none, b" -> 36 0 0 0 kept", "{}", vector.escape_ascii());
            refused += 1;
        }
    }
    assert!(tried >= 600 && refused >= 100, "{tried} vectors, {refused} of them 36 without an index");
    for (register, ranges) in
        [("----", "0000-9999: 0"), ("F---", "0000: 36, 0001-9999: 0"), ("FFFF", "0000-0003: 36, 0004-9999: 0")]
    {
        let vector = format!("each     indexed  #### 00000 +0000 1 20250310050000 r {register} 0---- 0174 0000");
        let told = written(ask, &mut samples, vector.as_bytes());
        assert_eq!(told, format!("{vector} -> {ranges}").into_bytes());
    }
}

#[test]
fn seconds_of_vectors() {
    let (_, ask) = PROGRAMS[0];
    let told = |vector: &str| String::from_utf8(written(ask, &mut Samples::none(), vector.as_bytes())).expect("ASCII");
    for (time, answer) in
        [("00010101000000", "0 0"), ("20250310050000", "0 63877179600"), ("20250310240000", "22 0"), ("2025", "22 0")]
    {
        assert_eq!(told(&format!("seconds  {time}")), format!("seconds  {time} -> {answer}"));
    }
}

/// Where an answer is another, its vector is named; so is a line too few or too many.
#[test]
fn a_changed_answer_is_told_apart() {
    let stdin = b"# PANs\npan      1                  \neach     pan      #                  \npan      x\n";
    let stdout: [&[u8]; 4] = [
        b"# PANs\n",
        b"pan      1                   -> yes\n",
        b"each     pan      #                   -> 0-9: yes\n",
        b"pan      x -> no\n",
    ];
    let named = |lines: &[&[u8]]| first_difference(PROGRAMS[0].1, stdin, &lines.concat()).map(|d| (d.line, d.at));
    assert_eq!(named(&stdout), None);
    let changes: [(usize, &[u8]); 4] = [
        (0, b"# PAN\n"),
        (1, b"pan      1                   -> no\n"),
        (2, b"each     pan      #                   -> 0-8: yes, 9: no\n"),
        (3, b"pan      x -> yes\n"),
    ];
    for (at, other) in changes {
        let mut changed = stdout;
        changed[at] = other;
        assert_eq!(named(&changed), Some((at + 1, at + 1)));
    }
    assert_eq!(named(&[&stdout[..], &[b"more\n"]].concat()), Some((5, 5)));
    assert_eq!(named(&stdout[..3]), Some((4, 4)));
    assert_eq!(named(&[stdout[0], stdout[2], stdout[3]]), Some((2, 2)));
}
