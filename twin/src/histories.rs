//! The maker of random histories: a table, arguments and orders for noderun.

use std::fmt;

use crate::compare::MOST_BYTES;
use crate::files::{node, task};
use crate::node::{Harvester, LAST_CLOCK, MOST_AMOUNT, Node, Order};
use crate::node_edges::{no_orders, padded, with_arguments, wrong_arguments};
use crate::noderun::{MOST_LINE, MOST_LINES, MOST_SAMPLES};
use crate::random::{Draws, Random, any_draw, any_name, damaged, lawful};
use crate::table::{MOST_CAP, MOST_PERIOD, MOST_RATE, MOST_TASKS, Table, load};

/// Stands in the arguments for the path of the table file.
pub const TABLE: &str = "TABLE";

pub struct History {
    pub file: Vec<u8>,
    pub arguments: Vec<String>,
    /// None in arguments that are wrong, and in edges.
    pub form: Option<Form>,
    pub orders: Vec<u8>,
}

/// The forms that a harvester has in the arguments.
#[derive(Debug, Clone, Copy, PartialEq, Eq)]
pub enum Form {
    Steady,
    Trace,
    ConverterSteady,
    ConverterTrace,
    Pair,
}

impl fmt::Display for Form {
    fn fmt(&self, out: &mut fmt::Formatter) -> fmt::Result {
        out.write_str(match self {
            Form::Steady => "steady",
            Form::Trace => "trace",
            Form::ConverterSteady => "converter steady",
            Form::ConverterTrace => "converter trace",
            Form::Pair => "pair",
        })
    }
}

pub const FORMS: [Form; 5] = [
    Form::Steady,
    Form::Trace,
    Form::ConverterSteady,
    Form::ConverterTrace,
    Form::Pair,
];

/// How long a history is, and whether its slots are shown.
#[derive(Clone, Copy, PartialEq, Eq)]
enum Size {
    Shown,
    Quiet,
    /// Few orders, up to this many slots.
    Long(u64),
    /// As many lines as there may be.
    Full,
}

/// Most slots that a history of any size runs.
const MOST_SLOTS: u64 = 2_000_000;

pub fn history(random: &mut Random) -> History {
    some_history(random, None)
}

/// A history of few orders that may run this many slots, at least 1.
pub fn long_history(random: &mut Random, slots: u64) -> History {
    some_history(random, Some(Size::Long(slots)))
}

/// Of this size, or of any.
fn some_history(random: &mut Random, size: Option<Size>) -> History {
    let file = table_file(random);
    if random.one_in(25) {
        let all = wrong_arguments();
        let words = &all[random.index(all.len())];
        return with_arguments(file, words);
    }
    let table = load(&file[..file.len().min(MOST_BYTES)]).ok();
    let (rate, floor, cap) = match &table {
        Some(table) => (table.rate, table.floor, table.cap),
        None => (10, 0, 100),
    };
    let (form, words, harvester) = any_harvester(random, rate);
    let level = any_level(random, floor, cap);
    let longest = table
        .iter()
        .flat_map(|table| &table.tasks)
        .map(|task| task.period)
        .max();
    let size = size.unwrap_or_else(|| match random.below(40) {
        0 | 1 => Size::Long(MOST_SLOTS),
        2 => Size::Full,
        3..=7 => Size::Quiet,
        // Long periods want more slots than are good to show.
        _ if longest > Some(400) && !random.one_in(8) => Size::Quiet,
        _ => Size::Shown,
    });

    let mut arguments = Vec::new();
    if size != Size::Shown && !(size == Size::Full && random.one_in(2)) {
        arguments.push("--quiet".to_string());
    }
    arguments.push(TABLE.to_string());
    arguments.push(level.to_string());
    arguments.extend(words);
    let started = table
        .as_ref()
        .and_then(|table| Node::start(table, harvester, level).ok());
    let orders = match started {
        Some(node) => orders(random, table.as_ref().unwrap(), node, size),
        None => b"release 1 1 0\nslots 5\nno order\n"[..random.pick(&[0, 14, 22, 31])].to_vec(),
    };
    History {
        file,
        arguments,
        form: Some(form),
        orders,
    }
}

/// Mostly a lawful table, and mostly one with short periods.
fn table_file(random: &mut Random) -> Vec<u8> {
    match random.below(25) {
        0 => damaged(random),
        1..=4 => lawful(random).concat(),
        _ => small(random),
    }
}

fn small(random: &mut Random) -> Vec<u8> {
    let most = u64::from(MOST_RATE);
    let rate = random.pick(&[1, 2, 3, 7, 10, 10, 10, 100, 256, 1_000, most / 3, most]);
    let room = match random.below(6) {
        0 => random.below(rate),
        _ => rate * random.between(1, 8) + random.below(rate),
    };
    let room = room.min(MOST_CAP);
    let draws = if room <= rate {
        Draws::Below
    } else {
        random.pick(&[Draws::Below, Draws::Above, Draws::Across, Draws::Ends])
    };
    let floor = match random.below(3) {
        0 => random.between(0, MOST_CAP - room),
        1 => rate.min(MOST_CAP - room),
        _ => 0,
    };
    let count = match random.below(10) {
        0 => MOST_TASKS as u64,
        1 => random.between(0, MOST_TASKS as u64),
        _ => random.between(1, 5),
    };
    let most_units = random.pick(&[1, 2, 4, 4, 10]);
    // How loosely the tasks lie in time, in quarters of what all need.
    let loose = random.pick(&[1, 2, 3, 4, 5, 6, 8, 8, 12]);
    let tight = random.one_in(2);
    let mut file = node(rate as u32, floor, floor + room);
    for _ in 0..count {
        let units = random.between(1, most_units);
        let draw = any_draw(random, draws, rate, room);
        let slots = (units * draw.max(rate)).div_ceil(rate);
        let period = slots * count * loose / 4 + random.below(1 + slots * count / 2);
        let period = period.clamp(units, MOST_PERIOD.into());
        let deadline = match random.below(6) {
            0 if tight => units,
            1 | 2 if tight => random.between(units, period),
            3 => random.between(units.max(period / 2), period),
            _ => period,
        };
        let name = any_name(random);
        file.extend(task(
            units as u16,
            period as u32,
            deadline as u32,
            draw,
            &name,
        ));
    }
    file
}

/// Mostly one that promises the rate or more.
fn any_harvester(random: &mut Random, rate: u32) -> (Form, Vec<String>, Harvester) {
    let (low, high) = (u64::from(rate), u64::from(MOST_AMOUNT));
    let promise = match random.below(20) {
        0 => low - 1,
        1 => random.below(low),
        2 => random.between(low, high),
        3 => u32::MAX.into(),
        4..=9 => low + random.below(low),
        _ => low,
    };
    let form = random.pick(&FORMS);
    let trace = |random: &mut Random, least: u64| {
        let list = any_list(random, least, low);
        let samples: Vec<String> = list.iter().map(u32::to_string).collect();
        let mut text = samples.join(",");
        if list.is_empty() {
            text = "none".to_string();
        }
        (vec!["trace".to_string(), text], Harvester::trace(&list))
    };
    let steady = |amount: u64| {
        let amount = amount.min(u32::MAX.into()) as u32;
        let words = vec!["steady".to_string(), amount.to_string()];
        (words, Harvester::steady(amount))
    };
    let (words, harvester) = match form {
        Form::Steady => steady(promise),
        Form::Trace => trace(random, promise),
        Form::ConverterSteady | Form::ConverterTrace => {
            let any = random.between(1, 256) as u16;
            let factor = random.pick(&[any, any, 128, 255, 256, 257, 1_000, u16::MAX]);
            let factor = if random.one_in(50) { 0 } else { factor };
            // The least amount of which so many 256ths are the promise.
            let parts = u64::from(factor).clamp(1, 256);
            let amount = (promise * 256).div_ceil(parts);
            let (words, under) = if form == Form::ConverterSteady {
                steady(amount)
            } else {
                trace(random, amount)
            };
            let front = vec!["converter".to_string(), factor.to_string()];
            ([front, words].concat(), Harvester::converter(factor, under))
        }
        Form::Pair => {
            let one = random.below(promise + 1);
            let (first, steady) = steady(one);
            let (second, trace) = trace(random, promise - one);
            let front = vec!["pair".to_string()];
            (
                [front, first, second].concat(),
                Harvester::pair(steady, trace),
            )
        }
    };
    (form, words, harvester)
}

fn any_list(random: &mut Random, least: u64, rate: u64) -> Vec<u32> {
    let count = match random.below(30) {
        0 => 0,
        1 => MOST_SAMPLES as u64,
        2 => random.between(1, MOST_SAMPLES as u64),
        _ => random.between(1, 8),
    };
    let span = random.pick(&[0, 1, rate, 4 * rate]);
    let mut list: Vec<u32> = (0..count)
        .map(|_| {
            let sample = match random.below(16) {
                0 => u32::MAX.into(),
                1 | 2 => least,
                _ => least + random.between(0, span),
            };
            sample.min(u32::MAX.into()) as u32
        })
        .collect();
    if !list.is_empty() {
        let at = random.index(list.len());
        list[at] = least.min(u32::MAX.into()) as u32;
    }
    list
}

fn any_level(random: &mut Random, floor: u64, cap: u64) -> u64 {
    match random.below(20) {
        0 => random.pick(&[
            floor.saturating_sub(1),
            cap + 1,
            0,
            cap + (1 << 32),
            u64::MAX,
        ]),
        1..=8 => floor,
        9..=11 => cap,
        _ => random.between(floor, cap),
    }
}

/// The text of the orders; the node goes along, so that they hit borders.
fn orders(random: &mut Random, table: &Table, node: Node, size: Size) -> Vec<u8> {
    let (steps, slots) = match size {
        Size::Shown => (random.below(60), random.between(20, 800)),
        Size::Quiet => (random.below(100), random.between(20, 300_000)),
        Size::Long(slots) => (random.between(1, 40), slots),
        Size::Full => (u64::MAX, 5_000),
    };
    let mut writer = Writer {
        full: random.one_in(3),
        faults: random.one_in(8),
        random,
        table,
        node,
        long: matches!(size, Size::Long(_)),
        most: slots,
        slots,
        lines: Vec::new(),
    };
    for _ in 0..steps {
        if writer.lines.len() >= MOST_LINES {
            break;
        }
        writer.step();
    }
    let mut lines = writer.lines;
    lines.truncate(MOST_LINES);
    let mut text = lines.join(&b'\n');
    // The last line may lack its end.
    if !lines.is_empty() && !random.one_in(6) {
        text.push(b'\n');
    }
    text
}

struct Writer<'a> {
    random: &'a mut Random,
    table: &'a Table<'a>,
    node: Node<'a>,
    /// All jobs with full units and draws.
    full: bool,
    /// Lines that are no orders, too.
    faults: bool,
    long: bool,
    /// Slots that may be run in all.
    most: u64,
    /// Slots that may yet be run.
    slots: u64,
    lines: Vec<Vec<u8>>,
}

impl Writer<'_> {
    fn step(&mut self) {
        match self.random.below(24) {
            0..=9 => self.round(),
            10..=12 => self.border(),
            13 => self.early(),
            14 | 15 => self.wrong_release(),
            16 => self.past_the_end(),
            17..=19 => {
                let count = self.some_slots();
                self.run(count);
            }
            20 => self.order(Order::Slots(0)),
            21 => self.lines.push(Vec::new()),
            _ if self.faults => {
                let mut all = no_orders();
                let line = all.swap_remove(self.random.index(all.len()));
                self.lines.push(line);
            }
            _ => self.run(1),
        }
    }

    /// Writes the order and does it.
    fn order(&mut self, order: Order) {
        let line = match self.random.below(200) {
            0 => order.to_string().replace(' ', " 0"),
            1 => padded(&order, MOST_LINE),
            _ => order.to_string(),
        };
        self.lines.push(line.into_bytes());
        // Refused or done, the next order comes all the same.
        let _ = self.node.order(&order, |_| ());
    }

    fn run(&mut self, count: u64) {
        let count = count.min(self.slots);
        self.slots -= count;
        self.order(Order::Slots(count as u32));
    }

    fn some_slots(&mut self) -> u64 {
        if self.long && self.random.one_in(3) {
            return self.random.between(1, self.most);
        }
        match self.random.below(8) {
            0 => self.random.between(1, 100),
            1..=3 => self.random.between(1, 12),
            _ => self.random.between(1, 4),
        }
    }

    fn some_task(&mut self) -> Option<usize> {
        match self.table.tasks.len() {
            0 => None,
            count => Some(self.random.index(count)),
        }
    }

    /// A job of this task, counted from 0, within its limits.
    fn release(&mut self, index: usize) {
        let task = &self.table.tasks[index];
        let (mut units, mut draw) = (u64::from(task.units), task.draw);
        if !self.full {
            if self.random.one_in(3) {
                units = self.random.between(1, units);
            }
            if self.random.one_in(3) {
                draw = self.random.between(0, draw);
            }
        }
        self.order(Order::Release {
            task: index as u8 + 1,
            units: units as u16,
            draw,
        });
    }

    /// Releases what may be released, and runs on: for some slots, or until
    /// another release may come.
    fn round(&mut self) {
        let all = self.random.one_in(2);
        for index in 0..self.table.tasks.len() {
            let ready = self.node.next_release(index) <= self.node.clock();
            if ready && (all || self.random.one_in(2)) {
                self.release(index);
            }
        }
        let clock = self.node.clock();
        let next = (0..self.table.tasks.len())
            .map(|index| self.node.next_release(index))
            .filter(|&next| next > clock)
            .min();
        match next {
            Some(next) if self.random.one_in(2) => self.run(next - clock),
            _ => {
                let count = self.some_slots();
                self.run(count);
            }
        }
    }

    /// The last clock at which a release is too early, then the next one.
    fn border(&mut self) {
        let Some(index) = self.some_task() else {
            return;
        };
        let (clock, next) = (self.node.clock(), self.node.next_release(index));
        if clock + 1 < next {
            self.run(next - 1 - clock);
        }
        self.release(index);
        self.run(1);
        self.release(index);
    }

    /// Twice the same task at one clock.
    fn early(&mut self) {
        if let Some(index) = self.some_task() {
            self.release(index);
            self.release(index);
        }
    }

    /// A task that is not there, units or a draw outside the limits, or more
    /// of these at once.
    fn wrong_release(&mut self) {
        let count = self.table.tasks.len() as u8;
        let (mut number, mut units, mut draw) = (count + 1, 1, 0);
        let (mut most_units, mut most_draw) = (1, 0);
        if let Some(index) = self.some_task() {
            let task = &self.table.tasks[index];
            (most_units, most_draw) = (task.units as u16, task.draw);
            (number, units, draw) = (index as u8 + 1, most_units, most_draw);
        }
        let faults = self.random.between(1, 7);
        if faults & 1 != 0 && self.random.one_in(2) {
            number = self.random.pick(&[0, count + 1, 17, 18, 255]);
        }
        if faults & 2 != 0 {
            units = self.random.pick(&[0, most_units + 1, 501, u16::MAX]);
        }
        if faults & 4 != 0 {
            draw = self
                .random
                .pick(&[most_draw + 1, MOST_CAP + 1, 1 << 63, u64::MAX]);
        }
        self.order(Order::Release {
            task: number,
            units,
            draw,
        });
    }

    fn past_the_end(&mut self) {
        let least = (LAST_CLOCK - self.node.clock() + 1) as u32;
        let any = self.random.between(least.into(), u32::MAX.into()) as u32;
        let count = self.random.pick(&[least, 4_000_000_001, u32::MAX, any]);
        self.order(Order::Slots(count));
    }
}

#[cfg(test)]
mod tests {
    use super::*;
    use crate::noderun::{Run, parse, run};

    /// The run of a history; none if its arguments are wrong.
    fn ran(history: &History) -> Option<Run> {
        let arguments: Vec<_> = history.arguments.iter().map(|word| word.into()).collect();
        let mut setting = parse(&arguments).ok()?;
        setting.quiet = true;
        let mut text = Vec::new();
        let orders = &history.orders[..];
        Some(run(&setting, &history.file, orders, &mut text, |_, _| ()).unwrap())
    }

    #[test]
    fn same_seed_same_histories() {
        let (mut one, mut two) = (Random::new(5), Random::new(5));
        for _ in 0..50 {
            let (one, two) = (history(&mut one), history(&mut two));
            assert_eq!(one.file, two.file);
            assert_eq!(one.arguments, two.arguments);
            assert_eq!(one.orders, two.orders);
        }
    }

    #[test]
    fn accepted_tables_are_never_late() {
        let mut random = Random::new(11);
        let (mut jobs, mut exact) = (0, 0);
        for _ in 0..600 {
            let history = history(&mut random);
            let Some(run) = ran(&history) else {
                continue;
            };
            let (Some(true), Some(report)) = (run.accepted, run.report) else {
                continue;
            };
            assert_eq!(report.closed, report.finished, "{:?}", history.arguments);
            let table = load(&history.file).unwrap();
            for (bounds, longest) in crate::bounds::bounds(&table).iter().zip(&report.longest) {
                let bound = bounds.safe.window.map(u64::from);
                assert!(*longest <= bound, "{:?}", history.arguments);
                exact += u32::from(longest.is_some() && *longest == bound);
            }
            jobs += report.finished;
        }
        assert!(jobs > 1_000 && exact > 20, "{jobs} {exact}");
    }
}
