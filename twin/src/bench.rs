//! Tables and orders for the benchmark.

use std::fmt::Write;

use crate::files::{node, task};
use crate::node::Order;
use crate::table::{MOST_CAP, MOST_PERIOD, MOST_RATE, MOST_TASKS, MOST_UNITS};

fn lawful(tasks: u32) -> bool {
    (1..=MOST_TASKS as u32).contains(&tasks)
}

/// The table with the most bytes, 568.
pub fn largest() -> Vec<u8> {
    let mut file = node(MOST_RATE, 0, MOST_CAP);
    for number in 1..=MOST_TASKS {
        let name = format!("largest-{number:04}");
        file.extend(task(
            MOST_UNITS as u16,
            MOST_PERIOD,
            MOST_PERIOD,
            u64::from(MOST_RATE),
            name.as_bytes(),
        ));
    }
    file
}

/// A table in which the search of each task but the first takes this many
/// rounds on each curve; none if so many are not to be had in this way.
//
// The first task fills every slot, and each other one has a single job, so
// the window of a task grows in each round by the number of tasks before it.
pub fn rounds(tasks: u32, rounds: u32) -> Option<Vec<u8>> {
    let steps = tasks.checked_sub(1)?;
    if !lawful(tasks) || rounds == 0 || rounds.checked_mul(steps)? > MOST_PERIOD {
        return None;
    }
    let rate = u64::from(MOST_RATE);
    let mut file = node(MOST_RATE, 0, MOST_CAP);
    file.extend(task(1, 1, 1, rate, b"tick"));
    for step in 1..=steps {
        let name = format!("step{step}");
        file.extend(task(1, MOST_PERIOD, rounds * step, rate, name.as_bytes()));
    }
    Some(file)
}

/// Equal tasks for a node, and the orders that release all of them together
/// whenever that is allowed.
pub struct Load {
    tasks: u32,
    period: u32,
    draw: u64,
    cap: u64,
    name: &'static str,
}

const RATE: u32 = 10;

impl Load {
    /// A unit runs in every slot: the draw is the rate, and the jobs that are
    /// released together have as many units as there are slots in the period.
    pub fn busy(tasks: u32) -> Option<Load> {
        lawful(tasks).then(|| Load {
            tasks,
            period: MOST_UNITS * tasks,
            draw: u64::from(RATE),
            cap: 1_000,
            name: "busy",
        })
    }

    /// All jobs are open up to their deadlines, and no unit runs: at some ten
    /// nanojoules in a slot the store is never full enough.
    pub fn waiting(tasks: u32) -> Option<Load> {
        lawful(tasks).then_some(Load {
            tasks,
            period: MOST_PERIOD,
            draw: MOST_CAP,
            cap: MOST_CAP,
            name: "waiting",
        })
    }

    pub fn table(&self) -> Vec<u8> {
        let mut file = node(RATE, 0, self.cap);
        for number in 1..=self.tasks {
            let name = format!("{}{number}", self.name);
            file.extend(task(
                MOST_UNITS as u16,
                self.period,
                self.period,
                self.draw,
                name.as_bytes(),
            ));
        }
        file
    }

    /// The lines of the orders, which run this many slots.
    pub fn orders(&self, slots: u32) -> String {
        let mut text = String::new();
        let mut left = slots;
        while left > 0 {
            for number in 1..=self.tasks {
                let release = Order::Release {
                    task: number as u8,
                    units: MOST_UNITS as u16,
                    draw: self.draw,
                };
                writeln!(text, "{release}").unwrap();
            }
            let count = left.min(self.period);
            writeln!(text, "{}", Order::Slots(count)).unwrap();
            left -= count;
        }
        text
    }
}

#[cfg(test)]
mod tests {
    use super::*;
    use crate::bounds::bounds;
    use crate::listing::{Outcome, list};
    use crate::node::{Event, Harvester, Node};
    use crate::noderun::MOST_LINES;
    use crate::table::load;

    #[test]
    fn largest_is_lawful() {
        let file = largest();
        assert_eq!(file.len(), 568);
        assert_eq!(load(&file).unwrap().tasks.len(), MOST_TASKS);
        assert_eq!(list(&file).outcome, Outcome::Accepted);
    }

    #[test]
    fn rounds_are_as_asked() {
        for (tasks, count) in [
            (1, 7),
            (2, 1),
            (2, 10),
            (2, 100_000),
            (3, 50_000),
            (4, 1_000),
            (8, 1_000),
            (16, 1),
            (16, 1_000),
            (16, 6_666),
        ] {
            let file = rounds(tasks, count).unwrap();
            let table = load(&file).unwrap();
            let all = bounds(&table);
            assert_eq!(all.len(), tasks as usize);
            for found in &all[1..] {
                for bound in [found.time, found.greater, found.safe] {
                    assert_eq!(bound.rounds, count, "{tasks}");
                }
            }
        }
        for (tasks, count) in [(0, 1), (17, 1), (2, 0), (2, 100_001), (16, 6_667)] {
            assert!(rounds(tasks, count).is_none(), "{tasks} {count}");
        }
    }

    /// How many of this many slots idled, waited and ran.
    fn events(load_of: &Load, slots: u32) -> [u32; 3] {
        let file = load_of.table();
        let table = load(&file).unwrap();
        let harvester = Harvester::pair(Harvester::steady(4), Harvester::trace(&[6, 9, 30, 12]));
        let mut node = Node::start(&table, harvester, 0).unwrap();
        let mut seen = [0; 3];
        let text = load_of.orders(slots);
        assert!(text.lines().count() <= MOST_LINES);
        for line in text.lines() {
            let words: Vec<u64> = line.split(' ').flat_map(str::parse).collect();
            let order = match words[..] {
                [count] => Order::Slots(count as u32),
                [task, units, draw] => Order::Release {
                    task: task as u8,
                    units: units as u16,
                    draw,
                },
                _ => panic!("{line}"),
            };
            let count = |slot: crate::node::Slot| match slot.event {
                Event::Idle => seen[0] += 1,
                Event::Waited { .. } => seen[1] += 1,
                Event::Ran { .. } => seen[2] += 1,
            };
            node.order(&order, count).unwrap();
        }
        seen
    }

    #[test]
    fn busy_runs_in_every_slot() {
        for tasks in [1, 2, 4, 8, 16] {
            let busy = Load::busy(tasks).unwrap();
            assert_eq!(events(&busy, 1_000_000), [0, 0, 1_000_000], "{tasks}");
            assert_eq!(list(&busy.table()).outcome, Outcome::Accepted);
        }
    }

    #[test]
    fn waiting_waits_in_every_slot() {
        for tasks in [1, 16] {
            let waiting = Load::waiting(tasks).unwrap();
            assert_eq!(events(&waiting, 1_000_000), [0, 1_000_000, 0], "{tasks}");
        }
    }

    #[test]
    fn numbers_of_tasks() {
        for tasks in [0, 17, u32::MAX] {
            assert!(Load::busy(tasks).is_none());
            assert!(Load::waiting(tasks).is_none());
        }
    }
}
