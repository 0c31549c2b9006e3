//! Comparing a tablecheck program with the twin, over edge and random files.

use std::fmt;
use std::io;
use std::time::Duration;

use crate::files::edges;
use crate::listing::{Listing, Outcome, list};
use crate::process::{run, show, show_hex, show_status};
use crate::random::{Random, file};

/// The program reads no more of a file than this.
pub const MOST_BYTES: usize = 1024;

/// A program that takes longer for one file is ended.
const PATIENCE: Duration = Duration::from_secs(20);

/// From this count on, every outcome has to have come up.
const ENOUGH: u64 = 2_000;

/// How often each outcome came up.
#[derive(Default)]
pub struct Tally {
    accepted: u64,
    not_accepted: u64,
    refused: [u64; 8],
    absent: [u64; 3],
}

impl Tally {
    pub fn count(&mut self, listing: &Listing) {
        match listing.outcome {
            Outcome::Accepted => self.accepted += 1,
            Outcome::NotAccepted => self.not_accepted += 1,
            Outcome::Refused(number) => self.refused[usize::from(number) - 1] += 1,
        }
        for (sum, absent) in self.absent.iter_mut().zip(listing.absent) {
            *sum += u64::from(absent);
        }
    }

    fn all_met(&self) -> bool {
        let counts = [self.accepted, self.not_accepted];
        counts
            .iter()
            .chain(&self.refused)
            .chain(&self.absent)
            .all(|&count| count > 0)
    }
}

impl fmt::Display for Tally {
    fn fmt(&self, out: &mut fmt::Formatter) -> fmt::Result {
        let lawful = self.accepted + self.not_accepted;
        write!(
            out,
            "lawful {lawful}, accepted {}, not accepted {}, refused",
            self.accepted, self.not_accepted
        )?;
        for (i, count) in self.refused.iter().enumerate() {
            write!(out, " {}: {count}", i + 1)?;
        }
        let [time, greater, safe] = self.absent;
        write!(
            out,
            ", absent bounds time {time} greater {greater} safe {safe}"
        )
    }
}

/// Runs the program on the edge files and on `count` random ones. Answers
/// whether it agreed on all and, in a run long enough, whether all outcomes
/// came up.
pub fn compare(program: &str, seed: u64, count: u64) -> io::Result<bool> {
    let edges = edges();
    for (note, file) in &edges {
        let listing = answer(file);
        if !agrees(program, note, file, &listing)? {
            return Ok(false);
        }
    }
    let mut tally = Tally::default();
    let mut random = Random::new(seed);
    for number in 1..=count {
        let file = file(&mut random);
        let listing = answer(&file);
        let note = format!("random file {number} of seed {seed}");
        if !agrees(program, &note, &file, &listing)? {
            return Ok(false);
        }
        tally.count(&listing);
    }
    let edges = edges.len();
    println!("no difference in {edges} edge files and {count} random files; random: {tally}");
    if count >= ENOUGH && !tally.all_met() {
        println!("an outcome never came up");
        return Ok(false);
    }
    Ok(true)
}

/// The twin's own answer.
pub fn answer(file: &[u8]) -> Listing {
    list(&file[..file.len().min(MOST_BYTES)])
}

/// Runs the program on one file and shows a difference.
pub fn agrees(program: &str, note: &str, file: &[u8], own: &Listing) -> io::Result<bool> {
    let theirs = run(program, &[], file, PATIENCE)?;
    let own_status = if own.outcome == Outcome::Accepted {
        0
    } else {
        1
    };
    if theirs.text == own.text && theirs.status == Some(own_status) {
        return Ok(true);
    }
    println!("difference in {note}, {} bytes:", file.len());
    show_hex(file);
    println!("{program}: status {}, output", show_status(theirs.status));
    show(&theirs.text);
    if !theirs.told.is_empty() {
        println!("its standard error");
        show(&theirs.told);
    }
    println!("twin: status {own_status}, output");
    show(&own.text);
    Ok(false)
}

#[cfg(test)]
mod tests {
    use super::*;

    #[test]
    fn random_files_meet_every_outcome() {
        for seed in [1, 2, 3] {
            let mut random = Random::new(seed);
            let mut tally = Tally::default();
            for _ in 0..ENOUGH {
                tally.count(&answer(&file(&mut random)));
            }
            assert!(tally.all_met(), "seed {seed}: {tally}");
        }
    }
}
