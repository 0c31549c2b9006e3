//! The long comparison: both programs against the twin, round after round,
//! until the time is up.

use std::fs;
use std::io;
use std::path::Path;
use std::time::{Duration, Instant};

use crate::compare;
use crate::compare_node;
use crate::files;
use crate::histories::{History, history, long_history};
use crate::node_edges;
use crate::random::{Random, rough_file};

/// Files and histories of one round.
const FILES: u64 = 400;
const HISTORIES: u64 = 40;

/// Histories of one round that may run many slots, and how many.
const DRIVES: u64 = 2;
const MOST_SLOTS: u64 = 6_000_000;

/// Time between two lines that say how far it is.
const PAUSE: Duration = Duration::from_secs(60);

struct Programs<'a> {
    tablecheck: &'a str,
    noderun: &'a str,
    /// Holds the files of the case at hand.
    folder: &'a Path,
}

/// What was compared, apart from the edges of the first round.
#[derive(Default)]
struct Counts {
    rounds: u64,
    files: u64,
    by_outcome: compare::Tally,
    by_class: compare_node::Tally,
}

/// Compares for so many seconds, and to the end of the round. Answers whether
/// the programs agreed on all; it stops at the first difference.
pub fn long(tablecheck: &str, noderun: &str, seed: u64, seconds: u64) -> io::Result<bool> {
    let folder = std::env::temp_dir().join(format!("twin-long-{}", std::process::id()));
    fs::create_dir(&folder)?;
    let programs = Programs {
        tablecheck,
        noderun,
        folder: &folder,
    };
    let mut counts = Counts::default();
    let same = programs.rounds(seed, Duration::from_secs(seconds), &mut counts);
    println!("seed {seed}, whole rounds {}", counts.rounds);
    println!("files {}: {}", counts.files, counts.by_outcome);
    let histories = &counts.by_class;
    println!("{histories}, orders done {}", histories.done);
    match same {
        Ok(true) => println!("no difference"),
        Ok(false) => println!("the files of the case are in {}", folder.display()),
        Err(_) => (),
    }
    if !matches!(same, Ok(false)) {
        fs::remove_dir_all(&folder)?;
    }
    same
}

/// The seed of the round after the one with this seed.
fn next_seed(seed: u64) -> u64 {
    Random::new(seed).word()
}

impl Programs<'_> {
    fn rounds(&self, seed: u64, time: Duration, counts: &mut Counts) -> io::Result<bool> {
        let start = Instant::now();
        if !self.edges()? {
            return Ok(false);
        }
        let mut seed = seed;
        let mut told = start;
        // The first round has the seed itself, so that a later round can be
        // run again alone.
        while self.round(seed, counts)? {
            if start.elapsed() >= time {
                return Ok(true);
            }
            if told.elapsed() >= PAUSE {
                told = Instant::now();
                println!(
                    "after {} seconds: rounds {}, files {}, histories {}",
                    start.elapsed().as_secs(),
                    counts.rounds,
                    counts.files,
                    counts.by_class.histories
                );
            }
            seed = next_seed(seed);
        }
        Ok(false)
    }

    /// The fixed cases, which every round would only repeat.
    fn edges(&self) -> io::Result<bool> {
        for (note, file) in &files::edges() {
            if !self.file(note, file, &mut compare::Tally::default())? {
                return Ok(false);
            }
        }
        let mut edges = node_edges::edges();
        edges.push(node_edges::clock_end());
        for (i, history) in edges.iter().enumerate() {
            let note = format!("edge history {}", i + 1);
            if !self.history(&note, history, &mut compare_node::Tally::default())? {
                return Ok(false);
            }
        }
        Ok(true)
    }

    fn round(&self, seed: u64, counts: &mut Counts) -> io::Result<bool> {
        let mut random = Random::new(seed);
        for number in 1..=FILES {
            let note = format!("file {number} of the round with seed {seed}");
            let file = rough_file(&mut random);
            if !self.file(&note, &file, &mut counts.by_outcome)? {
                return Ok(false);
            }
            counts.files += 1;
        }
        for number in 1..=HISTORIES + DRIVES {
            let note = format!("history {number} of the round with seed {seed}");
            let history = if number <= HISTORIES {
                history(&mut random)
            } else {
                long_history(&mut random, MOST_SLOTS)
            };
            if !self.history(&note, &history, &mut counts.by_class)? {
                return Ok(false);
            }
        }
        counts.rounds += 1;
        Ok(true)
    }

    fn file(&self, note: &str, file: &[u8], tally: &mut compare::Tally) -> io::Result<bool> {
        let own = compare::answer(file);
        if !compare::agrees(self.tablecheck, note, file, &own)? {
            let table = self.folder.join("table");
            fs::write(&table, file)?;
            println!("again: {} < {}", self.tablecheck, table.display());
            return Ok(false);
        }
        tally.count(&own);
        Ok(true)
    }

    fn history(
        &self,
        note: &str,
        history: &History,
        tally: &mut compare_node::Tally,
    ) -> io::Result<bool> {
        let own = compare_node::answer(history)?;
        if !compare_node::agrees(self.folder, self.noderun, note, history, &own)? {
            return Ok(false);
        }
        tally.count(history, &own);
        Ok(true)
    }
}

#[cfg(test)]
mod tests {
    use super::*;

    #[test]
    fn rounds_have_their_own_seeds() {
        let mut seeds = vec![1];
        for _ in 0..1_000 {
            seeds.push(next_seed(*seeds.last().unwrap()));
        }
        seeds.sort_unstable();
        seeds.dedup();
        assert_eq!(seeds.len(), 1_001);
    }

    #[test]
    fn drives_are_long() {
        let mut random = Random::new(3);
        let mut most = 0;
        for _ in 0..20 {
            let history = long_history(&mut random, MOST_SLOTS);
            let own = compare_node::answer(&history).unwrap();
            let mut tally = compare_node::Tally::default();
            tally.count(&history, &own);
            most = most.max(tally.slots);
        }
        assert!(most > MOST_SLOTS / 2, "{most}");
    }

    #[test]
    fn a_difference_leaves_the_file() {
        let folder = std::env::temp_dir().join(format!("twin-test-{}", std::process::id()));
        fs::create_dir(&folder).unwrap();
        // Both write nothing, which no file and no history has as its answer.
        let programs = Programs {
            tablecheck: "true",
            noderun: "true",
            folder: &folder,
        };
        let mut tally = compare::Tally::default();
        let file = files::example();
        assert!(!programs.file("a test", &file, &mut tally).unwrap());
        assert_eq!(fs::read(folder.join("table")).unwrap(), file);
        let history = node_edges::with_arguments(file.clone(), "TABLE 0 steady 10");
        let mut tally = compare_node::Tally::default();
        assert!(!programs.history("a test", &history, &mut tally).unwrap());
        assert_eq!(fs::read(folder.join("orders")).unwrap(), history.orders);
        fs::remove_dir_all(&folder).unwrap();
    }
}
