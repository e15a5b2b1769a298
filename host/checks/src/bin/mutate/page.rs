//! The page docs/MUTATIONS.md.

use super::Told;

const HEAD: &str = "# Changes that are noticed

Each is a single change of the plain implementation (`host/checks/src/plain`), from the lists in `host/checks/mutations`. It
is made on a copy; named is the first vector whose answer is then another, or where no vector's is, the first value of what
the paper lists (`host/checks/src/lists.rs`) that is answered otherwise. What no input tells apart is said with its reason.
This page is printed by `host/mutate`, which fails where a change is neither noticed nor shown to be none:

    host/mutate > docs/MUTATIONS.md
";

/// A text as a cell of a table, shortened.
fn cell(text: &str) -> String {
    let mut short: String = text.trim_end().chars().take(90).collect();
    if short.len() < text.trim_end().len() {
        short.push_str(" ..");
    }
    short.replace('|', "\\|")
}

/// A vector's place, and its text.
fn noticed(found: &str) -> String {
    let (place, text) = found.split_once(' ').unwrap_or((found, ""));
    match place {
        "lists" => cell(&format!("lists: {text}")),
        _ => format!("{place} `{}`", cell(text)),
    }
}

fn row(told: &Told) -> String {
    let by = match (&told.noticed, &told.change.same) {
        (Some(found), None) => noticed(found),
        (Some(found), Some(_)) => format!("SAID TO BE NONE, AND NOTICED: {}", noticed(found)),
        (None, Some(reason)) => format!("none: {reason}"),
        (None, None) => "NOT NOTICED".to_string(),
    };
    format!("| {} | {by} |\n", cell(&told.change.what))
}

fn totals(all: &[Told]) -> String {
    let by = |start: &str| all.iter().filter(|t| t.noticed.as_ref().is_some_and(|n| n.starts_with(start))).count();
    let none = all.iter().filter(|t| t.noticed.is_none() && t.change.same.is_some()).count();
    let lost = all.iter().filter(|t| t.noticed.is_none() && t.change.same.is_none()).count();
    format!(
        "\n{} changes: {} are noticed by a vector of `cases_forms`, {} by one of `cases_imports`, {} by the lists alone; {none} change\nno answer; {lost} are not noticed.\n",
        all.len(),
        by("cases_forms/"),
        by("cases_imports/"),
        by("lists ")
    )
}

pub fn page(all: &[Told]) -> String {
    let mut page = format!("{HEAD}{}", totals(all));
    let mut file = "";
    for told in all {
        if told.change.file != file {
            file = &told.change.file;
            page += &format!("\n## `{file}`\n\n| Change | Noticed by |\n|---|---|\n");
        }
        page += &row(told);
    }
    page
}
