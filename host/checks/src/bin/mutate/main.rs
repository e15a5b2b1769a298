//! Makes each change of `checks/mutations` on a copy of the plain implementation and prints, as a page, which vector notices
//! it, or which of the lists that the paper gives. It fails where a change is not noticed and not shown to be none, where one
//! that was shown to be none is noticed, and where one cannot be made. An argument leaves those changes that have it in them.
//! It stands on nothing but the standard library, so that `host/mutate` compiles it without the proved library.

mod kept;
#[path = "../../mutations.rs"]
mod mutations;
mod page;
mod workshop;

use kept::Kept;
use mutations::Change;
use std::fs::{read_dir, read_to_string};
use std::path::Path;
use workshop::Workshop;

/// All changes, list by list; each list is named after its file of `plain`.
fn changes(lists: &Path) -> Result<Vec<Change>, String> {
    let entries = read_dir(lists).map_err(|fault| format!("{}: {fault}", lists.display()))?;
    let mut paths: Vec<_> = entries.flatten().map(|entry| entry.path()).collect();
    paths.sort();
    let mut all = Vec::new();
    for path in paths {
        let text = read_to_string(&path).map_err(|fault| format!("{}: {fault}", path.display()))?;
        let name = path.file_stem().unwrap_or_default().to_string_lossy();
        all.extend(mutations::read(&format!("{name}.rs"), &text)?);
    }
    Ok(all)
}

/// A change and what notices it.
pub struct Told {
    pub change: Change,
    pub noticed: Option<String>,
}

fn run(wanted: &str) -> Result<bool, String> {
    let all = changes(Path::new("checks/mutations"))?;
    let workshop = Workshop::open(Path::new("target/mutate"))?;
    if let Some(found) = workshop.judge("")? {
        return Err(format!("without a change: {found}"));
    }
    for change in &all {
        workshop.changed(change)?;
    }
    let mut kept = Kept::open(Path::new("target/mutate-kept"), &workshop.inputs())?;
    let mut told = Vec::new();
    for change in all.into_iter().filter(|change| format!("{} {}", change.file, change.what).contains(wanted)) {
        let noticed = kept.told(&change, |change| workshop.try_change(change))?;
        if noticed.is_none() || change.same.is_some() {
            eprintln!("{}: {}: {}", change.file, change.what, noticed.as_deref().unwrap_or("not noticed"));
        }
        told.push(Told { change, noticed });
    }
    print!("{}", page::page(&told));
    Ok(told.iter().all(|t| t.noticed.is_some() != t.change.same.is_some()))
}

fn main() {
    let wanted = std::env::args().nth(1).unwrap_or_default();
    match run(&wanted) {
        Ok(true) => {}
        Ok(false) => std::process::exit(1),
        Err(fault) => {
            eprintln!("host/mutate: {fault}");
            std::process::exit(2);
        }
    }
}
