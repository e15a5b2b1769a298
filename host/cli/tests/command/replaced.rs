//! What stands where something is to be written: replaced where it is of the same kind or empty, else only by force.

use crate::common::*;
use graftspindle_checks::sample;

/// The files that there are beside the HGC.
fn all_kinds() -> Folder {
    let folder = ready();
    folder.write("text", b"a letter\n");
    folder.write("ait", &std::fs::read(AIT).expect("the demo has it"));
    folder.write("other_register", &folder.read("register"));
    folder.write("other_rows", &folder.read("rows"));
    folder.write("other_hgv", &sample::hgv(3));
    let mut torn = folder.read("hgc");
    torn.pop();
    folder.write("torn_hgc", &torn);
    folder
}

fn assert_not_replaced(folder: &Folder, line: &str) {
    let before = folder.all();
    let done = graftspindle(folder, line);
    assert_eq!((done.status, done.said.as_str()), (1, ""), "{line}");
    assert!(done.fault.contains("is not replaced") && done.fault.contains("--force"), "{}", done.fault);
    assert!(folder.all() == before, "{line}");
}

#[test]
fn by_an_hgc() {
    let folder = all_kinds();
    let kinds = ["text", "ait", "other_register", "other_rows", "other_hgv", "torn_hgc"];
    for kind in kinds {
        assert_not_replaced(&folder, &IMPORT.replace("@hgc", &format!("@{kind}")));
    }
    let force = IMPORT.replace("--hgc @hgc", "--force --hgc @text");
    assert_eq!(graftspindle(&folder, &force).status, 0);
    assert_eq!(Some(folder.read("text")), imported().1);
}

/// An HGC of another list with lines taken and rejected, one without lines, and an empty file.
#[test]
fn hgc_by_an_hgc() {
    let folder = ready();
    assert_eq!(graftspindle(&folder, IMPORT).status, 0);
    let before = folder.read("hgc");
    folder.write("hgv", &sample::hgv(0));
    assert_eq!(graftspindle(&folder, IMPORT).status, 0);
    assert_ne!(folder.read("hgc"), before);
    folder.write("hgv", &sample::hgv(2));
    assert_eq!(graftspindle(&folder, IMPORT).status, 0);
    folder.write("hgc", b"");
    assert_eq!(graftspindle(&folder, IMPORT).status, 0);
    assert_eq!(folder.read("hgc").len(), 174);
}

#[test]
fn by_issuer_rows() {
    let folder = all_kinds();
    for kind in ["text", "ait", "other_register", "other_hgv", "hgc"] {
        assert_not_replaced(&folder, &format!("issuers from-ait --issuers @{kind} @ait"));
    }
    let status = |line: &str| graftspindle(&folder, line).status;
    assert_eq!(status("issuers from-ait --issuers @other_rows @ait"), 0);
    assert_eq!(status("issuers from-ait --force --issuers @text @ait"), 0);
    assert_eq!(folder.read("text"), folder.read("other_rows"));
}

#[test]
fn by_what_was_owed() {
    let folder = all_kinds();
    assert_not_replaced(&folder, "register recover --hgc @other_register @register");
    assert_not_replaced(&folder, "register recover --hgc @register @register");
}

/// No line is appended to what is no journal, and no HGC falls on the journal.
#[test]
fn by_a_journal() {
    let folder = all_kinds();
    let before = folder.all();
    for kind in ["text", "ait", "register", "other_rows", "hgv", "hgc"] {
        let done = graftspindle(&folder, &IMPORT.replace(" --mode", &format!(" --journal @{kind} --mode")));
        assert!(done.status == 1 && done.fault.contains("is no journal"), "{kind}: {}", done.fault);
        assert!(folder.all() == before, "{kind}");
    }
    let done = graftspindle(&folder, &IMPORT.replace(" --mode", " --journal @fresh --mode").replace("@hgc", "@fresh"));
    assert!(done.status == 1 && done.fault.contains("--hgc would replace"), "{}", done.fault);
}
