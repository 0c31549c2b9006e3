//! Comparing a noderun program with the twin, over random histories.

use std::ffi::OsString;
use std::fmt;
use std::fs;
use std::io;
use std::path::Path;
use std::time::Duration;

use crate::compare::MOST_BYTES;
use crate::histories::{FORMS, History, TABLE, history};
use crate::node_edges::{clock_end, edges};
use crate::noderun::{Run, parse, run};
use crate::process::{self, show, show_hex, show_status};
use crate::random::Random;

/// A program that takes longer for one history is ended.
const PATIENCE: Duration = Duration::from_secs(60);

/// From this count on, every class has to have come up.
const ENOUGH: u64 = 500;

/// The refusals that a start or an order can meet.
const NUMBERS: [u8; 6] = [9, 10, 11, 12, 14, 15];

/// What the twin answers to a history.
pub struct Own {
    text: Vec<u8>,
    /// None if the arguments are wrong or no table file is there.
    run: Option<Run>,
}

impl Own {
    fn status(&self) -> i32 {
        let good = self.run.as_ref().is_some_and(Run::good);
        if good { 0 } else { 1 }
    }

    fn bad_lines(&self) -> &[usize] {
        self.run.as_ref().map_or(&[], |run| &run.bad_lines)
    }
}

/// How often each class came up.
#[derive(Default)]
pub struct Tally {
    pub histories: u64,
    wrong_arguments: u64,
    /// Tables refused, not accepted and accepted.
    tables: [u64; 3],
    forms: [u64; FORMS.len()],
    refused: [u64; NUMBERS.len()],
    /// Orders that were done.
    pub done: u64,
    quiet: u64,
    bad_lines: u64,
    /// Histories with refused orders and yet with status 0.
    refused_and_good: u64,
    pub slots: u64,
    /// Of the slots that are shown: idle, waited, ran.
    shown: [u64; 3],
    finished: u64,
    abandoned: u64,
    /// Jobs finished in accepted tables.
    in_time: u64,
}

impl Tally {
    pub fn count(&mut self, history: &History, own: &Own) {
        self.histories += 1;
        let Some(run) = &own.run else {
            self.wrong_arguments += 1;
            return;
        };
        self.tables[run.accepted.map_or(0, |accepted| 1 + usize::from(accepted))] += 1;
        let forms = FORMS.iter().zip(&mut self.forms);
        for (form, count) in forms {
            *count += u64::from(history.form == Some(*form));
        }
        for (number, count) in NUMBERS.iter().zip(&mut self.refused) {
            *count += run.refused.iter().filter(|&n| n == number).count() as u64;
        }
        self.done += run.done;
        self.quiet += u64::from(history.arguments[0] == "--quiet");
        self.bad_lines += run.bad_lines.len() as u64;
        self.refused_and_good += u64::from(run.good() && !run.refused.is_empty());
        for line in own.text.split(|&byte| byte == b'\n') {
            if line.starts_with(b"slot ") {
                let event = line.split(|&byte| byte == b' ').nth(2);
                let events = [&b"idle"[..], b"waited", b"ran"];
                for (name, count) in events.iter().zip(&mut self.shown) {
                    *count += u64::from(event == Some(name));
                }
            }
        }
        if let Some(report) = &run.report {
            self.slots += report.clock;
            self.finished += report.finished;
            self.abandoned += report.closed - report.finished;
            if run.accepted == Some(true) {
                self.in_time += report.finished;
            }
        }
    }

    fn all_met(&self) -> bool {
        let counts = [
            self.wrong_arguments,
            self.quiet,
            self.bad_lines,
            self.refused_and_good,
            self.slots,
            self.finished,
            self.abandoned,
            self.in_time,
        ];
        counts
            .iter()
            .chain(&self.tables)
            .chain(&self.forms)
            .chain(&self.refused)
            .chain(&self.shown)
            .all(|&count| count > 0)
    }
}

impl fmt::Display for Tally {
    fn fmt(&self, out: &mut fmt::Formatter) -> fmt::Result {
        write!(
            out,
            "histories {}, slots {}, refused",
            self.histories, self.slots
        )?;
        for (number, count) in NUMBERS.iter().zip(&self.refused) {
            write!(out, " {number}: {count}")?;
        }
        write!(
            out,
            ", jobs finished {} abandoned {}",
            self.finished, self.abandoned
        )?;
        let [refused, late, accepted] = self.tables;
        write!(
            out,
            ", tables accepted {accepted} not accepted {late} refused {refused}, harvesters"
        )?;
        for (form, count) in FORMS.iter().zip(&self.forms) {
            write!(out, " {form}: {count}")?;
        }
        let [idle, waited, ran] = self.shown;
        write!(
            out,
            ", slots shown idle {idle} waited {waited} ran {ran}, quiet {}, \
             lines that are no orders {}, wrong arguments {}",
            self.quiet, self.bad_lines, self.wrong_arguments
        )
    }
}

/// Runs the program on the edge histories and on `count` random ones. Answers
/// whether it agreed on all and, in a run long enough, whether all classes
/// came up.
pub fn compare_node(program: &str, seed: u64, count: u64) -> io::Result<bool> {
    let folder = std::env::temp_dir().join(format!("twin-{}", std::process::id()));
    fs::create_dir(&folder)?;
    let compared = compare_in(&folder, program, seed, count);
    // After a difference the files are left, to try again.
    if !matches!(compared, Ok(None)) {
        fs::remove_dir_all(&folder)?;
    }
    let Some((edges, tally)) = compared? else {
        return Ok(false);
    };
    println!(
        "no difference in {edges} edge histories and {count} random histories; random: {tally}"
    );
    if count >= ENOUGH && !tally.all_met() {
        println!("a class never came up");
        return Ok(false);
    }
    Ok(true)
}

/// The number of edge histories and the tally of the random ones; none after
/// a difference.
fn compare_in(
    folder: &Path,
    program: &str,
    seed: u64,
    count: u64,
) -> io::Result<Option<(usize, Tally)>> {
    let mut edges = edges();
    edges.push(clock_end());
    for (i, history) in edges.iter().enumerate() {
        let note = format!("edge history {}", i + 1);
        if !agrees(folder, program, &note, history, &answer(history)?)? {
            return Ok(None);
        }
    }
    let mut tally = Tally::default();
    let mut random = Random::new(seed);
    for number in 1..=count {
        let history = history(&mut random);
        let own = answer(&history)?;
        let note = format!("random history {number} of seed {seed}");
        if !agrees(folder, program, &note, &history, &own)? {
            return Ok(None);
        }
        tally.count(&history, &own);
    }
    Ok(Some((edges.len(), tally)))
}

/// Runs the program on one history and shows a difference; the files of the
/// history are then in the folder.
pub fn agrees(
    folder: &Path,
    program: &str,
    note: &str,
    history: &History,
    own: &Own,
) -> io::Result<bool> {
    let table = folder.join("table");
    fs::write(&table, &history.file)?;
    let arguments = arguments(history, &table);
    let theirs = process::run(program, &arguments, &history.orders, PATIENCE)?;
    let Some(what) = difference(&theirs, own) else {
        return Ok(true);
    };
    println!("difference in {note}: {what}");
    show_history(history);
    let orders = folder.join("orders");
    fs::write(&orders, &history.orders)?;
    print!("again: {program}");
    for word in &arguments {
        // An empty word has to be seen.
        let quotes = if word.is_empty() { "''" } else { "" };
        print!(" {}{quotes}", word.display());
    }
    println!(" < {}", orders.display());
    show_both(program, &theirs, own);
    Ok(false)
}

/// The history's arguments with the table's path in its place.
fn arguments(history: &History, path: &Path) -> Vec<OsString> {
    let put = |word: &String| match word.strip_prefix(TABLE) {
        Some(rest) => {
            let mut path = path.as_os_str().to_owned();
            path.push(rest);
            path
        }
        None => word.into(),
    };
    history.arguments.iter().map(put).collect()
}

/// The twin's own answer.
pub fn answer(history: &History) -> io::Result<Own> {
    let mut text = Vec::new();
    let words: Vec<OsString> = history.arguments.iter().map(OsString::from).collect();
    let run = match parse(&words) {
        Ok(setting) if setting.table == TABLE => {
            let file = &history.file[..history.file.len().min(MOST_BYTES)];
            let orders = &history.orders[..];
            Some(run(&setting, file, orders, &mut text, |_, _| ())?)
        }
        _ => None,
    };
    Ok(Own { text, run })
}

/// In what the answers differ, if they do.
fn difference(theirs: &process::Answer, own: &Own) -> Option<String> {
    if theirs.status != Some(own.status()) {
        Some("the status".to_string())
    } else if theirs.text != own.text {
        let line = same_lines(&theirs.text, &own.text) + 1;
        Some(format!("the standard output, line {line}"))
    } else if told_lines(&theirs.told) != own.bad_lines() {
        Some("the lines told on standard error".to_string())
    } else if own.run.is_none() && theirs.told.is_empty() {
        Some("no message on standard error".to_string())
    } else {
        None
    }
}

/// The numbers K of the lines `noderun: line K: ...`.
fn told_lines(told: &[u8]) -> Vec<usize> {
    String::from_utf8_lossy(told)
        .lines()
        .filter_map(|line| {
            let (number, _) = line.strip_prefix("noderun: line ")?.split_once(": ")?;
            number.parse().ok()
        })
        .collect()
}

fn lines(text: &[u8]) -> Vec<&[u8]> {
    text.split_inclusive(|&byte| byte == b'\n').collect()
}

/// How many lines agree from the front on.
fn same_lines(one: &[u8], other: &[u8]) -> usize {
    let (one, other) = (lines(one), lines(other));
    one.iter().zip(&other).take_while(|(a, b)| a == b).count()
}

fn show_history(history: &History) {
    println!("{TABLE}, {} bytes:", history.file.len());
    show_hex(&history.file);
    let orders = lines(&history.orders);
    println!("orders, {} lines:", orders.len());
    show_part(&orders, 0);
}

/// Both answers from shortly before the first difference on.
fn show_both(program: &str, theirs: &process::Answer, own: &Own) {
    let from = same_lines(&theirs.text, &own.text).saturating_sub(4);
    let status = show_status(theirs.status);
    let (their_lines, own_lines) = (lines(&theirs.text), lines(&own.text));
    let count = their_lines.len();
    println!(
        "{program}: status {status}, output of {count} lines, from line {}",
        from + 1
    );
    show_part(&their_lines, from);
    if !theirs.told.is_empty() {
        println!("its standard error");
        show_part(&lines(&theirs.told), 0);
    }
    let (status, count) = (own.status(), own_lines.len());
    println!(
        "twin: status {status}, output of {count} lines, from line {}",
        from + 1
    );
    show_part(&own_lines, from);
    if !own.bad_lines().is_empty() {
        println!("twin tells lines {:?}", own.bad_lines());
    }
}

/// Some lines from this one on.
fn show_part(lines: &[&[u8]], from: usize) {
    const MOST: usize = 20;
    for line in lines.iter().skip(from).take(MOST) {
        show(&line[..line.len().min(300)]);
    }
    let left = lines.len().saturating_sub(from + MOST);
    if left > 0 {
        println!("  (and {left} lines more)");
    }
}

#[cfg(test)]
mod tests {
    use super::*;

    #[test]
    fn random_histories_meet_every_class() {
        for seed in [1, 2, 3] {
            let mut random = Random::new(seed);
            let mut tally = Tally::default();
            for _ in 0..ENOUGH {
                let history = history(&mut random);
                tally.count(&history, &answer(&history).unwrap());
            }
            assert!(tally.all_met(), "seed {seed}: {tally}");
        }
    }

    #[test]
    fn lines_are_told() {
        let told = b"noderun: line 3: a\nother\nnoderun: line 12: b: c\nnoderun: line x: d\n";
        assert_eq!(told_lines(told), [3, 12]);
        assert_eq!(same_lines(b"a\nb\nc", b"a\nb\nd\n"), 2);
        assert_eq!(same_lines(b"", b"a"), 0);
    }
}
