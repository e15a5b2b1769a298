//! A disk in memory that can lose its power. What a folder has not synced may or may not be there afterwards, each change of
//! a name by itself; a file that is being written may hold any part of its bytes.

use graftspindle_cli::files::disk::Like;
use graftspindle_cli::files::Disk;
use std::cell::RefCell;
use std::collections::BTreeMap;
use std::io;
use std::path::{Path, PathBuf};

type Names = BTreeMap<PathBuf, usize>;

/// A change of a name that is not yet on the disk.
#[derive(Clone)]
enum Change {
    Made(PathBuf, usize),
    Renamed(PathBuf, PathBuf, usize),
    Removed(PathBuf),
}

#[derive(Clone, Default)]
struct State {
    files: Vec<Vec<u8>>,
    names: Names,
    on_disk: Names,
    unsynced: Vec<Change>,
    /// The file that was being written when the power went.
    torn: Option<usize>,
    /// How many more steps there are before everything stops.
    steps: usize,
}

#[derive(Default)]
pub struct Model(RefCell<State>);

fn stopped() -> io::Error {
    io::Error::other("stopped")
}

fn apply(change: &Change, names: &mut Names) {
    match change {
        Change::Made(name, file) => drop(names.insert(name.clone(), *file)),
        Change::Removed(name) => drop(names.remove(name)),
        Change::Renamed(from, to, file) => {
            names.remove(from);
            names.insert(to.clone(), *file);
        }
    }
}

fn folder(change: &Change) -> &Path {
    let (Change::Made(name, _) | Change::Renamed(name, _, _) | Change::Removed(name)) = change;
    name.parent().expect("a name stands in a folder")
}

impl State {
    fn step(&mut self) -> io::Result<()> {
        self.steps = self.steps.checked_sub(1).ok_or_else(stopped)?;
        Ok(())
    }

    fn change(&mut self, change: Change) {
        apply(&change, &mut self.names);
        self.unsynced.push(change);
    }

    fn file(&self, path: &Path) -> io::Result<usize> {
        self.names.get(path).copied().ok_or_else(|| io::Error::from(io::ErrorKind::NotFound))
    }

    /// What had the name goes first.
    fn make(&mut self, path: &Path) -> usize {
        if self.names.contains_key(path) {
            self.change(Change::Removed(path.to_path_buf()));
        }
        self.files.push(Vec::new());
        let file = self.files.len() - 1;
        self.change(Change::Made(path.to_path_buf(), file));
        file
    }
}

impl Model {
    /// Files that are on the disk.
    pub fn with(files: &[(&Path, &[u8])]) -> Model {
        let mut state = State::default();
        for (number, (path, bytes)) in files.iter().enumerate() {
            state.files.push(bytes.to_vec());
            state.on_disk.insert(path.to_path_buf(), number);
        }
        state.names = state.on_disk.clone();
        Model(RefCell::new(state))
    }

    /// The same disk, on which so many steps can be taken.
    pub fn for_steps(&self, steps: usize) -> Model {
        Model(RefCell::new(State { steps, ..self.0.borrow().clone() }))
    }

    pub fn names(&self) -> Vec<PathBuf> {
        self.0.borrow().names.keys().cloned().collect()
    }

    pub fn bytes(&self, path: &Path) -> Option<Vec<u8>> {
        let state = self.0.borrow();
        state.names.get(path).map(|&file| state.files[file].clone())
    }

    /// What the disk can be after a kill, and after the power went.
    pub fn after_a_stop(&self) -> Vec<Model> {
        let state = self.0.borrow().clone();
        let mut all = torn_ways(&state);
        for chosen in 0..1u32 << state.unsynced.len() {
            let mut names = state.on_disk.clone();
            let survives = |(i, _): &(usize, &Change)| chosen >> i & 1 == 1;
            let surviving = state.unsynced.iter().enumerate().filter(survives);
            surviving.for_each(|(_, change)| apply(change, &mut names));
            let lost = State { names: names.clone(), on_disk: names, unsynced: Vec::new(), ..state.clone() };
            all.extend(torn_ways(&lost));
        }
        all.into_iter().map(|state| Model(RefCell::new(State { torn: None, ..state }))).collect()
    }
}

/// The file that was being written: empty, in part, whole.
fn torn_ways(state: &State) -> Vec<State> {
    let Some(file) = state.torn else {
        return vec![state.clone()];
    };
    let length = state.files[file].len();
    let cut = |length: usize| {
        let mut state = state.clone();
        state.files[file].truncate(length);
        state
    };
    [0, length / 2, length.saturating_sub(1), length].into_iter().map(cut).collect()
}

impl Disk for Model {
    fn read(&self, path: &Path, _most: usize) -> io::Result<Vec<u8>> {
        let state = self.0.borrow();
        Ok(state.files[state.file(path)?].clone())
    }

    fn exists(&self, path: &Path) -> io::Result<bool> {
        Ok(self.0.borrow().names.contains_key(path))
    }

    fn write(&self, path: &Path, bytes: &[u8], _like: Like) -> io::Result<()> {
        let mut state = self.0.borrow_mut();
        state.step()?;
        let file = state.make(path);
        state.files[file] = bytes.to_vec();
        state.torn = Some(file);
        state.step()?;
        state.torn = None;
        Ok(())
    }

    fn rename(&self, from: &Path, to: &Path) -> io::Result<()> {
        let mut state = self.0.borrow_mut();
        state.step()?;
        let file = state.file(from)?;
        state.change(Change::Renamed(from.to_path_buf(), to.to_path_buf(), file));
        Ok(())
    }

    fn remove(&self, path: &Path) -> io::Result<()> {
        let mut state = self.0.borrow_mut();
        state.step()?;
        state.file(path)?;
        state.change(Change::Removed(path.to_path_buf()));
        Ok(())
    }

    fn sync_folder(&self, path: &Path) -> io::Result<()> {
        let mut state = self.0.borrow_mut();
        state.step()?;
        let (synced, rest): (Vec<_>, Vec<_>) = state.unsynced.drain(..).partition(|change| folder(change) == path);
        synced.iter().for_each(|change| apply(change, &mut state.on_disk));
        state.unsynced = rest;
        Ok(())
    }

    fn owner(&self, _path: &Path) -> io::Result<u32> {
        Ok(0)
    }

    fn read_owned(&self, path: &Path, most: usize) -> io::Result<(Vec<u8>, u32)> {
        Ok((self.read(path, most)?, 0))
    }

    fn user(&self) -> io::Result<u32> {
        Ok(0)
    }

    fn number_of(&self, _folder: &Path) -> io::Result<u64> {
        Ok(1)
    }
}
