//! The lists of `checks/mutations`: single changes of the plain implementation, each in a word, with the text that goes and
//! the text that comes. `host/mutate` makes each of them and shows what notices it.

use std::ops::Range;

/// One change of a file of `plain`.
#[derive(Clone, Debug, PartialEq)]
pub struct Change {
    /// The file in `plain`.
    pub file: String,
    /// What is wrong with it.
    pub what: String,
    /// What goes and what comes. A blank of what goes stands for any blanks and ends of lines.
    pub pairs: Vec<(String, String)>,
    /// Why no input tells it apart, where none does.
    pub same: Option<String>,
}

/// Where a text stands in a source, its blanks aside.
fn places(source: &str, old: &str) -> Vec<Range<usize>> {
    let words: Vec<&str> = old.split_whitespace().collect();
    let Some(first) = words.first() else { return Vec::new() };
    let ends = |start: usize| {
        let mut end = start + first.len();
        for word in &words[1..] {
            let rest = source[end..].trim_start();
            if rest.len() == source.len() - end || !rest.starts_with(word) {
                return None;
            }
            end = source.len() - rest.len() + word.len();
        }
        Some(start..end)
    };
    source.match_indices(first).filter_map(|(start, _)| ends(start)).collect()
}

impl Change {
    /// The source with the change made: each text that goes must stand in it once.
    pub fn apply(&self, source: &str) -> Result<String, String> {
        let mut source = source.to_string();
        for (old, new) in &self.pairs {
            match &places(&source, old)[..] {
                [place] => source.replace_range(place.clone(), new),
                found => return Err(format!("{}: {}: `{old}` stands {} times", self.file, self.what, found.len())),
            }
        }
        Ok(source)
    }

    fn finished(self, all: &mut Vec<Change>) -> Result<(), String> {
        let idle = self.pairs.iter().any(|(old, new)| old.is_empty() || old == new);
        if self.pairs.is_empty() || idle || all.iter().any(|other| other.pairs == self.pairs && other.file == self.file)
        {
            return Err(format!("{}: {}: it changes nothing, or stands twice", self.file, self.what));
        }
        all.push(self);
        Ok(())
    }
}

/// The changes of a list, which belongs to one file of `plain`.
pub fn read(file: &str, list: &str) -> Result<Vec<Change>, String> {
    let (mut all, mut last): (Vec<Change>, Option<Change>) = (Vec::new(), None);
    let mut old: Option<&str> = None;
    for (at, line) in list.lines().enumerate().filter(|(_, line)| !line.is_empty() && !line.starts_with('#')) {
        let fault = || format!("{file}, line {}: {line}", at + 1);
        let (key, text) = line.split_once(':').ok_or_else(fault)?;
        let text = text.strip_prefix(' ').unwrap_or(text);
        match (key, &mut last) {
            ("what", _) if old.is_none() => {
                let next = Change { file: file.to_string(), what: text.to_string(), pairs: Vec::new(), same: None };
                last.replace(next).map_or(Ok(()), |change| change.finished(&mut all))?;
            }
            ("old", Some(_)) if old.is_none() => old = Some(text),
            ("new", Some(change)) => change.pairs.push((old.take().ok_or_else(fault)?.to_string(), text.to_string())),
            ("same", Some(change)) => change.same = Some(text.to_string()),
            _ => return Err(fault()),
        }
    }
    last.map_or(Ok(()), |change| change.finished(&mut all))?;
    old.map_or(Ok(all), |old| Err(format!("{file}: `{old}` has nothing that comes")))
}
