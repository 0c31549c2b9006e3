//! The node: its harvester, store and jobs, run slot by slot.

use std::fmt;

use crate::table::Table;

/// No harvester gives or promises more for a slot.
pub const MOST_AMOUNT: u32 = 1_000_000_000;

/// The clock's end.
pub const LAST_CLOCK: u64 = 4_000_000_000;

#[derive(Debug, Clone, PartialEq, Eq)]
pub enum Harvester {
    /// Gives the same amount in every slot.
    Steady(u32),
    /// Gives its samples in turn, and starts over at the end.
    Trace {
        samples: Vec<u32>,
        least: u32,
        next: usize,
    },
    /// Gives a part of what another one gives, in 256ths.
    Converter { factor: u32, under: Box<Harvester> },
    /// Gives the sum of two.
    Pair(Box<Harvester>, Box<Harvester>),
}

impl Harvester {
    pub fn steady(amount: u32) -> Self {
        Harvester::Steady(amount.min(MOST_AMOUNT))
    }

    pub fn trace(samples: &[u32]) -> Self {
        let samples: Vec<u32> = samples.iter().map(|&s| s.min(MOST_AMOUNT)).collect();
        Harvester::Trace {
            least: samples.iter().copied().min().unwrap_or(0),
            samples,
            next: 0,
        }
    }

    pub fn converter(factor: u16, under: Harvester) -> Self {
        Harvester::Converter {
            factor: u32::from(factor).min(256),
            under: Box::new(under),
        }
    }

    pub fn pair(one: Harvester, other: Harvester) -> Self {
        Harvester::Pair(Box::new(one), Box::new(other))
    }

    /// No slot brings less than this.
    pub fn promise(&self) -> u32 {
        match self {
            Harvester::Steady(amount) => *amount,
            Harvester::Trace { least, .. } => *least,
            Harvester::Converter { factor, under } => convert(under.promise(), *factor),
            Harvester::Pair(one, other) => add(one.promise(), other.promise()),
        }
    }

    /// The amount of the coming slot; the next call is for the slot after it.
    fn take(&mut self) -> u32 {
        match self {
            Harvester::Steady(amount) => *amount,
            Harvester::Trace { samples, next, .. } => {
                let Some(&amount) = samples.get(*next) else {
                    // Only an empty list has no sample here.
                    return 0;
                };
                *next += 1;
                if *next == samples.len() {
                    *next = 0;
                }
                amount
            }
            Harvester::Converter { factor, under } => convert(under.take(), *factor),
            Harvester::Pair(one, other) => add(one.take(), other.take()),
        }
    }
}

fn convert(amount: u32, factor: u32) -> u32 {
    // At most the amount, as no factor is above 256.
    (u64::from(amount) * u64::from(factor) / 256) as u32
}

fn add(one: u32, other: u32) -> u32 {
    // Both are at most 1e9, so the sum fits.
    (one + other).min(MOST_AMOUNT)
}

/// A job from its release until it is closed.
#[derive(Debug, Clone, Copy, PartialEq, Eq)]
struct Job {
    /// Counted from 0.
    task: usize,
    released: u64,
    /// The clock at which it is abandoned.
    due: u64,
    /// Units that have yet to run.
    left: u32,
    /// Of each unit.
    draw: u64,
}

/// What the node keeps of a task's closed jobs and of its releases.
#[derive(Debug, Clone, Default, PartialEq, Eq)]
struct Past {
    /// The clock of the last accepted release.
    last: Option<u64>,
    /// The longest response of a finished job.
    longest: Option<u64>,
}

/// What happened in a slot. Tasks are told by their numbers, from 1.
#[derive(Debug, Clone, Copy, PartialEq, Eq)]
pub enum Event {
    Idle,
    Waited { task: usize },
    Ran { task: usize, progress: Progress },
}

#[derive(Debug, Clone, Copy, PartialEq, Eq)]
pub enum Progress {
    GoesOn,
    Finished { response: u64 },
}

#[derive(Debug, Clone, Copy, PartialEq, Eq)]
pub struct Slot {
    /// The clock before the slot.
    pub clock: u64,
    pub event: Event,
    pub harvest: u32,
    pub draw: u64,
    /// After the slot.
    pub level: u64,
    pub abandoned: u32,
}

impl fmt::Display for Slot {
    fn fmt(&self, out: &mut fmt::Formatter) -> fmt::Result {
        write!(out, "slot {} ", self.clock)?;
        match self.event {
            Event::Idle => write!(out, "idle")?,
            Event::Waited { task } => write!(out, "waited {task}")?,
            Event::Ran { task, progress } => match progress {
                Progress::GoesOn => write!(out, "ran {task} goes on")?,
                Progress::Finished { response } => {
                    write!(out, "ran {task} finished {response}")?;
                }
            },
        }
        write!(
            out,
            " harvest {} draw {} level {} abandoned {}",
            self.harvest, self.draw, self.level, self.abandoned
        )
    }
}

#[derive(Debug, Clone, Copy, PartialEq, Eq)]
pub enum Order {
    Release { task: u8, units: u16, draw: u64 },
    Slots(u32),
}

impl fmt::Display for Order {
    fn fmt(&self, out: &mut fmt::Formatter) -> fmt::Result {
        match self {
            Order::Release { task, units, draw } => write!(out, "release {task} {units} {draw}"),
            Order::Slots(count) => write!(out, "slots {count}"),
        }
    }
}

#[derive(Debug, Clone, PartialEq, Eq)]
pub struct Report {
    pub clock: u64,
    pub level: u64,
    pub released: u64,
    pub closed: u64,
    pub finished: u64,
    /// For each task the longest response of a finished job.
    pub longest: Vec<Option<u64>>,
}

/// A number from 9 to 15: why a call is refused. It then changes nothing.
pub type Refused = u8;

pub struct Node<'a> {
    table: &'a Table<'a>,
    harvester: Harvester,
    clock: u64,
    /// Between the table's floor and cap.
    level: u64,
    released: u64,
    closed: u64,
    finished: u64,
    /// The open jobs, the most urgent one first.
    open: Vec<Job>,
    /// One for each task, in the table's order.
    past: Vec<Past>,
}

impl<'a> Node<'a> {
    pub fn start(
        table: &'a Table<'a>,
        harvester: Harvester,
        level: u64,
    ) -> Result<Node<'a>, Refused> {
        if harvester.promise() < table.rate {
            return Err(9);
        }
        if !(table.floor..=table.cap).contains(&level) {
            return Err(10);
        }
        Ok(Node {
            table,
            harvester,
            clock: 0,
            level,
            released: 0,
            closed: 0,
            finished: 0,
            open: Vec::with_capacity(table.tasks.len()),
            past: vec![Past::default(); table.tasks.len()],
        })
    }

    pub fn release(&mut self, task: u8, units: u16, draw: u64) -> Result<(), Refused> {
        let index = usize::from(task).wrapping_sub(1);
        let Some(task) = self.table.tasks.get(index) else {
            return Err(11);
        };
        let units = u32::from(units);
        if !(1..=task.units).contains(&units) || draw > task.draw {
            return Err(12);
        }
        if self.clock == LAST_CLOCK {
            return Err(15);
        }
        let past = &mut self.past[index];
        if let Some(last) = past.last
            && self.clock - last < u64::from(task.period)
        {
            return Err(14);
        }
        past.last = Some(self.clock);
        self.released += 1;
        // The job before is closed: its deadline is not past the period.
        let place = self.open.partition_point(|job| job.task < index);
        let job = Job {
            task: index,
            released: self.clock,
            due: self.clock + u64::from(task.deadline),
            left: units,
            draw,
        };
        self.open.insert(place, job);
        Ok(())
    }

    /// Runs `count` slots and hands each to `watch`; zero are always done.
    pub fn slots(&mut self, count: u32, mut watch: impl FnMut(Slot)) -> Result<(), Refused> {
        if count == 0 {
            return Ok(());
        }
        if self.harvester.promise() < self.table.rate {
            return Err(9);
        }
        if self.clock + u64::from(count) > LAST_CLOCK {
            return Err(15);
        }
        for _ in 0..count {
            watch(self.slot());
        }
        Ok(())
    }

    pub fn order(&mut self, order: &Order, watch: impl FnMut(Slot)) -> Result<(), Refused> {
        match *order {
            Order::Release { task, units, draw } => self.release(task, units, draw),
            Order::Slots(count) => self.slots(count, watch),
        }
    }

    fn slot(&mut self) -> Slot {
        let clock = self.clock;
        let (event, draw) = self.run();
        let harvest = self.harvester.take();
        // The job that ran draws at most its task's draw, and level + rate
        // covers that and the floor; the harvest is at least the rate.
        self.level = (self.level + u64::from(harvest) - draw).min(self.table.cap);
        self.clock += 1;
        Slot {
            clock,
            event,
            harvest,
            draw,
            level: self.level,
            abandoned: self.abandon(),
        }
    }

    /// Gives the slot to the most urgent open job, if the level allows it.
    /// Answers what happened and what was drawn.
    fn run(&mut self) -> (Event, u64) {
        let Some(job) = self.open.first_mut() else {
            return (Event::Idle, 0);
        };
        let index = job.task;
        let task = index + 1;
        let need = self.table.tasks[index].draw + self.table.floor;
        if self.level + u64::from(self.table.rate) < need {
            return (Event::Waited { task }, 0);
        }
        let draw = job.draw;
        job.left -= 1;
        let progress = if job.left > 0 {
            Progress::GoesOn
        } else {
            let response = self.clock + 1 - job.released;
            self.open.remove(0);
            let longest = &mut self.past[index].longest;
            *longest = (*longest).max(Some(response));
            self.closed += 1;
            self.finished += 1;
            Progress::Finished { response }
        };
        (Event::Ran { task, progress }, draw)
    }

    /// Closes the jobs that are due now, and counts them.
    fn abandon(&mut self) -> u32 {
        let before = self.open.len();
        self.open.retain(|job| job.due != self.clock);
        let abandoned = before - self.open.len();
        self.closed += abandoned as u64;
        abandoned as u32
    }

    pub fn report(&self) -> Report {
        Report {
            clock: self.clock,
            level: self.level,
            released: self.released,
            closed: self.closed,
            finished: self.finished,
            longest: self.past.iter().map(|past| past.longest).collect(),
        }
    }

    pub fn clock(&self) -> u64 {
        self.clock
    }

    /// The least clock at which this task, counted from 0, may be released.
    pub fn next_release(&self, index: usize) -> u64 {
        match self.past[index].last {
            Some(last) => last + u64::from(self.table.tasks[index].period),
            None => 0,
        }
    }
}

#[cfg(test)]
mod tests {
    use super::*;
    use crate::table::of_numbers;

    fn table(floor: u64, cap: u64, tasks: &[(u32, u32, u32, u64)]) -> Table<'static> {
        of_numbers(10, floor, cap, tasks)
    }

    fn example() -> Table<'static> {
        table(0, 100, &[(1, 8, 8, 40), (3, 12, 12, 0), (1, 30, 21, 25)])
    }

    fn steady(table: &'static Table<'static>, level: u64) -> Node<'static> {
        Node::start(table, Harvester::steady(10), level).unwrap()
    }

    fn kept(table: Table<'static>) -> &'static Table<'static> {
        Box::leak(Box::new(table))
    }

    fn slots(node: &mut Node, count: u32) -> Vec<Slot> {
        let mut seen = Vec::new();
        node.slots(count, |slot| seen.push(slot)).unwrap();
        seen
    }

    fn one(node: &mut Node) -> Slot {
        slots(node, 1)[0]
    }

    fn ran(task: usize) -> Event {
        Event::Ran {
            task,
            progress: Progress::GoesOn,
        }
    }

    fn finished(task: usize, response: u64) -> Event {
        Event::Ran {
            task,
            progress: Progress::Finished { response },
        }
    }

    fn taken(mut harvester: Harvester, count: usize) -> Vec<u32> {
        (0..count).map(|_| harvester.take()).collect()
    }

    #[test]
    fn example_from_an_empty_store() {
        let mut node = steady(kept(example()), 0);
        node.release(1, 1, 40).unwrap();
        node.release(2, 3, 0).unwrap();
        let seen = slots(&mut node, 8);
        let events: Vec<Event> = seen.iter().map(|slot| slot.event).collect();
        let waited = Event::Waited { task: 1 };
        let want = [
            waited,
            waited,
            waited,
            finished(1, 4),
            ran(2),
            ran(2),
            finished(2, 7),
            Event::Idle,
        ];
        assert_eq!(events, want);
        let levels: Vec<u64> = seen.iter().map(|slot| slot.level).collect();
        assert_eq!(levels, [10, 20, 30, 0, 10, 20, 30, 40]);
        assert!(seen.iter().all(|slot| slot.harvest == 10));
        assert!(seen.iter().all(|slot| slot.abandoned == 0));
        let draws: Vec<u64> = seen.iter().map(|slot| slot.draw).collect();
        assert_eq!(draws, [0, 0, 0, 40, 0, 0, 0, 0]);
        let report = node.report();
        assert_eq!((report.clock, report.level), (8, 40));
        assert_eq!((report.released, report.closed, report.finished), (2, 2, 2));
        assert_eq!(report.longest, [Some(4), Some(7), None]);
    }

    #[test]
    fn a_second_release_waits_for_the_period() {
        let mut node = steady(kept(example()), 0);
        node.release(1, 1, 40).unwrap();
        assert_eq!(node.release(1, 1, 40), Err(14));
        slots(&mut node, 7);
        assert_eq!(node.next_release(0), 8);
        assert_eq!(node.release(1, 1, 40), Err(14));
        assert_eq!(node.report().released, 1);
        slots(&mut node, 1);
        assert_eq!(node.release(1, 1, 40), Ok(()));
        assert_eq!(node.report().released, 2);
    }

    #[test]
    fn two_tasks_by_hand() {
        let tasks = [(1, 10, 10, 0), (2, 10, 10, 15)];
        for (later, response) in [(0, 3), (1, 4)] {
            let mut node = steady(kept(table(0, 100, &tasks)), 0);
            node.release(2, 2, 15).unwrap();
            slots(&mut node, later);
            node.release(1, 1, 0).unwrap();
            slots(&mut node, 9);
            assert_eq!(node.report().longest[1], Some(response));
        }
    }

    #[test]
    fn store_by_hand() {
        let mut node = steady(kept(example()), 100);
        node.release(1, 1, 40).unwrap();
        assert_eq!(one(&mut node).level, 70);
        let mut node = steady(kept(example()), 95);
        assert_eq!(one(&mut node).level, 100);
        // The job's own draw goes, the task's decides.
        let mut node = steady(kept(example()), 29);
        node.release(1, 1, 7).unwrap();
        assert_eq!(one(&mut node).event, Event::Waited { task: 1 });
        let slot = one(&mut node);
        assert_eq!((slot.event, slot.draw), (finished(1, 2), 7));
        assert_eq!(slot.level, 42);
    }

    #[test]
    fn decides_by_the_rate_above_the_floor() {
        let table = kept(table(50, 100, &[(1, 9, 9, 30)]));
        for (level, event) in [(69, Event::Waited { task: 1 }), (70, finished(1, 1))] {
            let mut node = Node::start(table, Harvester::steady(99), level).unwrap();
            node.release(1, 1, 30).unwrap();
            assert_eq!(one(&mut node).event, event);
        }
        let mut node = Node::start(table, Harvester::steady(10), 70).unwrap();
        node.release(1, 1, 30).unwrap();
        assert_eq!(one(&mut node).level, 50);
    }

    #[test]
    fn the_urgent_job_keeps_others_waiting() {
        let mut node = steady(kept(example()), 0);
        node.release(2, 3, 0).unwrap();
        assert_eq!(one(&mut node).event, ran(2));
        node.release(1, 1, 0).unwrap();
        assert_eq!(one(&mut node).event, Event::Waited { task: 1 });
    }

    #[test]
    fn late_jobs_are_abandoned() {
        // Two of three miss the same deadline; the first ends on it.
        let tasks = [(3, 5, 3, 0), (3, 5, 3, 0), (1, 3, 3, 0)];
        let mut node = steady(kept(table(0, 9, &tasks)), 0);
        for task in 1..=3 {
            let units = node.table.tasks[usize::from(task) - 1].units as u16;
            node.release(task, units, 0).unwrap();
        }
        let seen = slots(&mut node, 4);
        let abandoned: Vec<u32> = seen.iter().map(|slot| slot.abandoned).collect();
        assert_eq!(abandoned, [0, 0, 2, 0]);
        assert_eq!(seen[2].event, finished(1, 3));
        assert_eq!(seen[3].event, Event::Idle);
        let report = node.report();
        assert_eq!((report.released, report.closed, report.finished), (3, 3, 1));
        assert_eq!(report.longest, [Some(3), None, None]);
        // With period = deadline the next release comes at once.
        node.slots(2, |_| ()).unwrap();
        assert_eq!(node.release(3, 1, 0), Ok(()));
    }

    #[test]
    fn longest_is_kept() {
        let mut node = steady(kept(table(0, 100, &[(4, 4, 4, 0)])), 0);
        for (units, longest) in [(2, 2), (3, 3), (1, 3)] {
            node.release(1, units, 0).unwrap();
            slots(&mut node, 4);
            assert_eq!(node.report().longest, [Some(longest)]);
        }
    }

    #[test]
    fn steady_and_trace() {
        assert_eq!(taken(Harvester::steady(7), 2), [7, 7]);
        let most = Harvester::steady(u32::MAX);
        assert_eq!(most.promise(), MOST_AMOUNT);
        assert_eq!(taken(most, 1), [MOST_AMOUNT]);
        let trace = Harvester::trace(&[5, 3, u32::MAX]);
        assert_eq!(trace.promise(), 3);
        assert_eq!(taken(trace, 5), [5, 3, MOST_AMOUNT, 5, 3]);
        let high = Harvester::trace(&[u32::MAX, MOST_AMOUNT + 1]);
        assert_eq!(high.promise(), MOST_AMOUNT);
        let empty = Harvester::trace(&[]);
        assert_eq!(empty.promise(), 0);
        assert_eq!(taken(empty, 3), [0, 0, 0]);
    }

    #[test]
    fn converter_and_pair() {
        let half = Harvester::converter(128, Harvester::steady(15));
        assert_eq!(half.promise(), 7);
        assert_eq!(taken(half, 2), [7, 7]);
        for (factor, amount) in [(0, 0), (255, 996_093_750), (256, MOST_AMOUNT)] {
            let part = Harvester::converter(factor, Harvester::steady(MOST_AMOUNT));
            assert_eq!(part.promise(), amount);
        }
        for factor in [257, u16::MAX] {
            let whole = Harvester::converter(factor, Harvester::trace(&[9, 4]));
            assert_eq!(whole.promise(), 4);
            assert_eq!(taken(whole, 3), [9, 4, 9]);
        }
        let pair = Harvester::pair(Harvester::steady(3), Harvester::trace(&[5, 1]));
        assert_eq!(pair.promise(), 4);
        assert_eq!(taken(pair.clone(), 3), [8, 4, 8]);
        let pile = Harvester::converter(64, Harvester::pair(pair, Harvester::steady(90)));
        assert_eq!(pile.promise(), 23);
        assert_eq!(taken(pile, 2), [24, 23]);
        let most = Harvester::steady(MOST_AMOUNT);
        assert_eq!(Harvester::pair(most.clone(), most).promise(), MOST_AMOUNT);
    }

    #[test]
    fn start_refusals() {
        let table = kept(table(50, 100, &[]));
        let start = |amount, level| Node::start(table, Harvester::steady(amount), level).err();
        for (amount, level, want) in [
            (10, 50, None),
            (10, 100, None),
            (9, 50, Some(9)),
            (9, 0, Some(9)),
            (10, 49, Some(10)),
            (10, 101, Some(10)),
            (10, u64::MAX, Some(10)),
        ] {
            assert_eq!(start(amount, level), want, "{amount} {level}");
        }
    }

    #[test]
    fn release_refusals_in_order() {
        let mut node = steady(kept(example()), 0);
        node.release(2, 3, 0).unwrap();
        for (task, units, draw, want) in [
            (0, 1, 0, 11),
            (4, 1, 0, 11),
            (255, 0, u64::MAX, 11),
            (1, 0, 0, 12),
            (1, 2, 0, 12),
            (1, u16::MAX, 0, 12),
            (1, 1, 41, 12),
            (1, 1, u64::MAX, 12),
            (2, 4, 0, 12),
            (2, 3, 1, 12),
            (2, 3, 0, 14),
        ] {
            assert_eq!(node.release(task, units, draw), Err(want), "{task} {units}");
        }
        assert_eq!(node.report().released, 1);
    }

    #[test]
    fn the_clock_ends() {
        let mut node = steady(kept(example()), 0);
        for count in [4_000_000_001, u32::MAX] {
            assert_eq!(node.slots(count, |_| ()), Err(15));
        }
        assert_eq!(node.clock(), 0);
        node.clock = LAST_CLOCK - 3;
        assert_eq!(node.slots(4, |_| ()), Err(15));
        node.slots(2, |_| ()).unwrap();
        node.release(2, 3, 0).unwrap();
        assert_eq!(node.slots(2, |_| ()), Err(15));
        let last = one(&mut node);
        assert_eq!((last.clock, last.event), (LAST_CLOCK - 1, ran(2)));
        assert_eq!(node.clock(), LAST_CLOCK);
        assert_eq!(node.slots(1, |_| ()), Err(15));
        assert_eq!(node.slots(0, |_| ()), Ok(()));
        for (task, units, want) in [(0, 1, 11), (2, 0, 12), (2, 1, 15), (3, 1, 15)] {
            assert_eq!(node.release(task, units, 0), Err(want));
        }
        assert_eq!(node.report().clock, LAST_CLOCK);
    }

    #[test]
    fn no_tasks_are_idle() {
        let mut node = steady(kept(table(0, 25, &[])), 0);
        assert_eq!(node.release(1, 1, 0), Err(11));
        let levels: Vec<u64> = slots(&mut node, 4).iter().map(|slot| slot.level).collect();
        assert_eq!(levels, [10, 20, 25, 25]);
        assert!(node.report().longest.is_empty());
    }

    #[test]
    fn greatest_numbers_fit() {
        let mut table = table(0, 8_000_000_000, &[(500, 500, 500, 8_000_000_000)]);
        table.rate = MOST_AMOUNT;
        let harvester = Harvester::steady(u32::MAX);
        let mut node = Node::start(kept(table), harvester, 8_000_000_000).unwrap();
        node.release(1, 500, 8_000_000_000).unwrap();
        assert_eq!(one(&mut node).level, 1_000_000_000);
    }
}
