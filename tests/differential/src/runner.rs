//! Plays many seeds, two processes at a time, and keeps the first difference.

use crate::compare::{Check, Difference};
use crate::profiles::long_input;
use crate::shrink::shrink;
use std::path::{Path, PathBuf};
use std::sync::atomic::{AtomicBool, AtomicU64, Ordering};
use std::sync::Mutex;

const WORKERS: u64 = 2;

pub struct Runner {
    pub checks: Vec<Check>,
    /// The input of a seed.
    pub input: fn(u64) -> Vec<u8>,
    /// Where inputs that differ are saved.
    pub folder: PathBuf,
}

/// An input for which a check differs.
pub struct Failure {
    pub name: String,
    pub input: Vec<u8>,
    pub check: Check,
    pub difference: Difference,
}

impl Runner {
    /// Plays `count` seeds from `seed` on; the files played and the first failure.
    pub fn play_seeds(&self, seed: u64, count: u64) -> (u64, Option<Failure>) {
        let (next, played) = (AtomicU64::new(0), AtomicU64::new(0));
        let stop = AtomicBool::new(false);
        let failures = Mutex::new(Vec::new());
        std::thread::scope(|scope| {
            for worker in 0..WORKERS {
                let (next, played, stop, failures) = (&next, &played, &stop, &failures);
                scope.spawn(move || loop {
                    let number = next.fetch_add(1, Ordering::Relaxed);
                    if number >= count || stop.load(Ordering::Relaxed) {
                        return;
                    }
                    let input = (self.input)(seed.wrapping_add(number));
                    let name = seed.wrapping_add(number).to_string();
                    if let Some(failure) = self.play(&name, &input, worker) {
                        stop.store(true, Ordering::Relaxed);
                        failures
                            .lock()
                            .expect("no worker panics")
                            .push((number, failure));
                    }
                    played.fetch_add(1, Ordering::Relaxed);
                });
            }
        });
        let mut failures = failures.into_inner().expect("no worker panics");
        failures.sort_by_key(|(number, _)| *number);
        let first = failures.into_iter().next().map(|(_, failure)| failure);
        (played.into_inner(), first)
    }

    /// Plays an input of more than 2,600 days.
    pub fn play_long(&self, seed: u64) -> Option<Failure> {
        self.play(&format!("long-{seed}"), &long_input(seed), 0)
    }

    pub fn play(&self, name: &str, input: &[u8], worker: u64) -> Option<Failure> {
        let scratch = self.scratch(worker);
        self.checks.iter().find_map(|check| {
            let difference = check.difference(input, &scratch)?;
            Some(Failure {
                name: name.to_string(),
                input: input.to_vec(),
                check: check.clone(),
                difference,
            })
        })
    }

    /// Saves the input, shrinks it and saves the smaller one; what to print about it.
    pub fn report(&self, failure: &Failure) -> String {
        let whole = self.folder.join(format!("{}.day", failure.name));
        let small = self.folder.join(format!("{}.shrunk.day", failure.name));
        save(&whole, &failure.input);
        let scratch = self.scratch(0);
        let differs = |input: &[u8]| failure.check.difference(input, &scratch).is_some();
        let shrunk = shrink(&failure.input, differs);
        save(&small, &shrunk);
        let difference = failure.check.difference(&shrunk, &scratch);
        let shrunk_line = difference.map_or("none".into(), |difference| difference.first_line());
        format!(
            "{}\n{} ({} bytes): {}\n{} ({} bytes): {}",
            failure.check.command.join(" "),
            whole.display(),
            failure.input.len(),
            failure.difference.first_line(),
            small.display(),
            shrunk.len(),
            shrunk_line
        )
    }

    fn scratch(&self, worker: u64) -> PathBuf {
        let process = std::process::id();
        self.folder.join(format!("scratch-{process}-{worker}"))
    }

    /// Makes the folder for scratch files and saved inputs.
    pub fn prepare(&self) {
        std::fs::create_dir_all(&self.folder).expect("the folder can be made");
    }

    pub fn clean(&self) {
        for worker in 0..WORKERS {
            // A worker that played nothing has left no file.
            let _ = std::fs::remove_file(self.scratch(worker));
        }
    }
}

fn save(path: &Path, bytes: &[u8]) {
    std::fs::write(path, bytes).expect("the folder is writable");
}
