//! The demo ends as it says.

use crate::common::*;
use crate::tables::expected;

#[test]
fn demo_in_a_folder_and_without_one() {
    let folder = Folder::new();
    let told = graftspindle(&folder, "demo @kept");
    assert_eq!((told.status, told.fault.as_str()), (0, ""));
    assert!(told.said.contains("rejected 02: PAN number not valid"));
    for clocks in [
        "received 20250310051000 UTC, which the HGC shows as 20250310061000 (+01:00)",
        "received 20250331050000 UTC, which the HGC shows as 20250331070000 (+02:00)",
    ] {
        assert!(told.said.lines().any(|line| line == clocks), "{clocks}");
    }
    assert!(told.said.contains("list HGV9001232025033101, received 20250331050000"), "the stamp is UTC");
    let swept: Vec<&str> = told.said.lines().filter(|line| line.starts_with("swept at 20250401000000: ")).collect();
    let left = |count: usize| format!("swept at 20250401000000: removed 1, left {count}");
    assert_eq!(swept, [left(5), left(2)], "the register, and his copy");
    let last = told.said.lines().last().expect("it says something");
    assert!(last.starts_with("The copy of provider 900123 equals the records held for him: 2 records"), "{last}");
    assert!(exists(&folder, "kept/register") && exists(&folder, "kept/900123-full.hgc"));
    for name in ["900124-incremental.hgv", "900125-incremental.hgv"] {
        assert!(folder.read(&format!("kept/{name}")) == expected(name), "{name}");
    }
    let again = graftspindle(&folder, "demo");
    assert_eq!((again.status, again.said), (0, told.said));
    assert_eq!(graftspindle(&folder, "demo @kept").status, 1, "nothing is overwritten");
}
