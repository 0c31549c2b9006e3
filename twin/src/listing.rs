//! The text that tablecheck prints for a file.

use std::io::Write;

use crate::bounds::{Bound, bounds};
use crate::table::{Table, load};

#[derive(Debug, Clone, Copy, PartialEq, Eq)]
pub enum Outcome {
    Accepted,
    NotAccepted,
    Refused(u8),
}

pub struct Listing {
    pub text: Vec<u8>,
    pub outcome: Outcome,
    /// How many tasks lack their time, greater and safe bound.
    pub absent: [u32; 3],
}

/// Reads the file and writes its lines.
pub fn list(file: &[u8]) -> Listing {
    let mut text = Vec::with_capacity(1024);
    match load(file) {
        Ok(table) => lines(&table, text),
        Err(refusal) => {
            writeln!(text, "refused {} at {}", refusal.number, refusal.place).unwrap();
            Listing {
                text,
                outcome: Outcome::Refused(refusal.number),
                absent: [0; 3],
            }
        }
    }
}

fn lines(table: &Table, mut text: Vec<u8>) -> Listing {
    let mut absent = [0; 3];
    for (task, bounds) in table.tasks.iter().zip(bounds(table)) {
        text.extend_from_slice(task.name);
        let shown = [bounds.time, bounds.greater, bounds.safe];
        for (bound, absent) in shown.iter().zip(&mut absent) {
            put_bound(&mut text, bound);
            *absent += u32::from(bound.window.is_none());
        }
        let verdict = if bounds.safe.window.is_some() {
            "ok"
        } else {
            "late"
        };
        writeln!(text, " {} {verdict}", bounds.safe.rounds).unwrap();
    }
    let outcome = if absent[2] == 0 {
        text.extend_from_slice(b"accepted\n");
        Outcome::Accepted
    } else {
        text.extend_from_slice(b"not accepted\n");
        Outcome::NotAccepted
    };
    Listing {
        text,
        outcome,
        absent,
    }
}

fn put_bound(text: &mut Vec<u8>, bound: &Bound) {
    match bound.window {
        Some(window) => write!(text, " {window}").unwrap(),
        None => text.extend_from_slice(b" -"),
    }
}

#[cfg(test)]
mod tests {
    use super::*;
    use crate::files::{example, node, task, worst};

    fn text(file: &[u8]) -> String {
        String::from_utf8(list(file).text).unwrap()
    }

    #[test]
    fn worked_example() {
        let want = "acq 1 4 4 2 ok\nlog 4 4 7 2 ok\ntx 5 7 21 5 ok\naccepted\n";
        assert_eq!(text(&example()), want);
        assert_eq!(list(&example()).outcome, Outcome::Accepted);
    }

    #[test]
    fn example_with_a_shorter_deadline() {
        let mut file = example();
        assert_eq!(file[84], 21);
        file[84] = 20;
        let want = "acq 1 4 4 2 ok\nlog 4 4 7 2 ok\ntx 5 7 - 4 late\nnot accepted\n";
        assert_eq!(text(&file), want);
        assert_eq!(list(&file).outcome, Outcome::NotAccepted);
    }

    #[test]
    fn refusals() {
        assert_eq!(text(b""), "refused 4 at 0\n");
        assert_eq!(text(b"abc"), "refused 1 at 0\n");
        let file = [node(1, 0, 9), task(1, 1, 1, 10, b"a")].concat();
        assert_eq!(text(&file), "refused 8 at 24\n");
        assert_eq!(list(&file).outcome, Outcome::Refused(8));
    }

    #[test]
    fn no_tasks() {
        assert_eq!(text(&node(1, 0, 0)), "accepted\n");
    }

    #[test]
    fn odd_names_are_copied() {
        let file = [node(1, 0, 0), task(1, 1, 1, 0, b"-~!%{}\\\"0123")].concat();
        assert_eq!(text(&file), "-~!%{}\\\"0123 1 1 1 1 ok\naccepted\n");
    }

    #[test]
    fn worst_lines() {
        let want = "tick 1 1 1 1 ok\nlast - - - 100000 late\nnot accepted\n";
        assert_eq!(text(&worst()), want);
    }
}
