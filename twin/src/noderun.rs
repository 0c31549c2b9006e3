//! noderun: a table, a start level, a harvester and lines of orders, and the
//! text of the run.

use std::ffi::{OsStr, OsString};
use std::fs::File;
use std::io::{self, BufRead, BufWriter, Read, Write};

use crate::bounds::{Bounds, bounds};
use crate::compare::MOST_BYTES;
use crate::node::{Harvester, Node, Order, Refused, Report};
use crate::table::{Table, load};

pub const MOST_LINES: usize = 4_096;
pub const MOST_LINE: usize = 200;
pub const MOST_SAMPLES: usize = 64;

const USAGE: &str = "\
usage: noderun [--quiet] TABLE LEVEL HARVESTER < ORDERS
  HARVESTER  steady N | trace LIST | converter F steady N
             | converter F trace LIST | pair steady N trace LIST
  LIST       numbers joined by commas, or none
  ORDERS     lines `release TASK UNITS DRAW` and `slots N`";

/// What the arguments say.
#[derive(Debug, PartialEq, Eq)]
pub struct Setting {
    pub quiet: bool,
    pub table: OsString,
    pub level: u64,
    pub harvester: Harvester,
}

/// What came of a run.
#[derive(Debug, Default)]
pub struct Run {
    /// Whether the table is accepted; none if its file is refused.
    pub accepted: Option<bool>,
    /// The refusals of the start and of orders, in turn.
    pub refused: Vec<Refused>,
    /// How many orders were done.
    pub done: u64,
    /// The numbers of the lines that are no orders.
    pub bad_lines: Vec<usize>,
    /// None if the node did not start.
    pub report: Option<Report>,
}

impl Run {
    /// Whether the status is 0.
    pub fn good(&self) -> bool {
        self.report.is_some() && self.bad_lines.is_empty()
    }
}

/// Reads the orders from standard input. Answers whether all went well;
/// trouble is told on standard error.
pub fn noderun(arguments: &[OsString]) -> bool {
    let setting = match parse(arguments) {
        Ok(setting) => setting,
        Err(message) => {
            eprintln!("noderun: {message}\n{USAGE}");
            return false;
        }
    };
    let file = match read(&setting.table) {
        Ok(file) => file,
        Err(error) => {
            eprintln!("noderun: {}: {error}", setting.table.display());
            return false;
        }
    };
    let mut out = BufWriter::new(io::stdout().lock());
    let told = |line, message: &str| eprintln!("noderun: line {line}: {message}");
    let done = run(&setting, &file, io::stdin().lock(), &mut out, told)
        .and_then(|run| out.flush().map(|()| run));
    match done {
        Ok(run) => run.good(),
        Err(error) => {
            eprintln!("noderun: {error}");
            false
        }
    }
}

/// The front of the table file; more of it is not looked at.
fn read(path: &OsStr) -> io::Result<Vec<u8>> {
    let mut file = Vec::with_capacity(MOST_BYTES);
    File::open(path)?
        .take(MOST_BYTES as u64)
        .read_to_end(&mut file)?;
    Ok(file)
}

pub fn parse(arguments: &[OsString]) -> Result<Setting, &'static str> {
    let (quiet, arguments) = match arguments {
        [first, rest @ ..] if first == "--quiet" => (true, rest),
        all => (false, all),
    };
    let [table, level, harvester @ ..] = arguments else {
        return Err("arguments are missing");
    };
    let words: Vec<&[u8]> = harvester.iter().map(|w| w.as_encoded_bytes()).collect();
    Ok(Setting {
        quiet,
        table: table.clone(),
        level: number(level.as_encoded_bytes())?,
        harvester: parse_harvester(&words)?,
    })
}

fn parse_harvester(words: &[&[u8]]) -> Result<Harvester, &'static str> {
    match words {
        [b"converter", factor, under @ ..] if !matches!(under, [b"converter" | b"pair", ..]) => {
            let factor = number(factor)?;
            Ok(Harvester::converter(factor, parse_harvester(under)?))
        }
        [b"pair", b"steady", amount, b"trace", list] => Ok(Harvester::pair(
            Harvester::steady(number(amount)?),
            Harvester::trace(&samples(list)?),
        )),
        [b"steady", amount] => Ok(Harvester::steady(number(amount)?)),
        [b"trace", list] => Ok(Harvester::trace(&samples(list)?)),
        _ => Err("not a harvester"),
    }
}

fn samples(list: &[u8]) -> Result<Vec<u32>, &'static str> {
    if list == b"none" {
        return Ok(Vec::new());
    }
    let words = list.split(|&byte| byte == b',');
    let samples: Vec<u32> = words.map(number).collect::<Result<_, _>>()?;
    if samples.len() > MOST_SAMPLES {
        return Err("too many samples");
    }
    Ok(samples)
}

/// One decimal digit or more, and nothing else; zeros in front count for
/// nothing.
fn number<T: TryFrom<u64>>(word: &[u8]) -> Result<T, &'static str> {
    if word.is_empty() || !word.iter().all(u8::is_ascii_digit) {
        return Err("a number is missing");
    }
    let value = word.iter().try_fold(0u64, |value, digit| {
        value.checked_mul(10)?.checked_add(u64::from(digit - b'0'))
    });
    value
        .and_then(|value| T::try_from(value).ok())
        .ok_or("a number does not fit")
}

fn parse_order(line: &[u8]) -> Result<Order, &'static str> {
    let words: Vec<&[u8]> = line.split(|&byte| byte == b' ').collect();
    match words[..] {
        [b"release", task, units, draw] => Ok(Order::Release {
            task: number(task)?,
            units: number(units)?,
            draw: number(draw)?,
        }),
        [b"slots", count] => Ok(Order::Slots(number(count)?)),
        _ => Err("not an order"),
    }
}

/// Reads the next line into `line`, without its end. Of a line that is too
/// long only the front is kept, one byte more than a line may have.
fn next_line(input: &mut impl BufRead, line: &mut Vec<u8>) -> io::Result<bool> {
    line.clear();
    let most = MOST_LINE as u64 + 1;
    if input.by_ref().take(most).read_until(b'\n', line)? == 0 {
        return Ok(false);
    }
    if line.last() == Some(&b'\n') {
        line.pop();
    } else if line.len() > MOST_LINE {
        input.skip_until(b'\n')?;
    }
    Ok(true)
}

/// Loads the table, starts the node and does the orders of the input; `told`
/// gets the number of each line that is no order, and why.
pub fn run(
    setting: &Setting,
    file: &[u8],
    mut input: impl BufRead,
    out: &mut impl Write,
    mut told: impl FnMut(usize, &str),
) -> io::Result<Run> {
    let mut run = Run::default();
    let table = match load(file) {
        Ok(table) => table,
        Err(refusal) => {
            writeln!(out, "refused {} at {}", refusal.number, refusal.place)?;
            return Ok(run);
        }
    };
    let bounds = bounds(&table);
    let accepted = bounds.iter().all(|bounds| bounds.safe.window.is_some());
    run.accepted = Some(accepted);
    if !setting.quiet {
        let verdict = if accepted { "accepted" } else { "not accepted" };
        writeln!(out, "table {verdict}")?;
    }

    let mut node = match Node::start(&table, setting.harvester.clone(), setting.level) {
        Ok(node) => node,
        Err(number) => {
            writeln!(out, "start refused {number}")?;
            run.refused.push(number);
            return Ok(run);
        }
    };
    let mut orders = 0u32;
    let mut lines = 0;
    let mut line = Vec::with_capacity(MOST_LINE + 1);
    while next_line(&mut input, &mut line)? {
        lines += 1;
        let order = if lines > MOST_LINES {
            Err("too many lines")
        } else if line.is_empty() {
            continue;
        } else if line.len() > MOST_LINE {
            Err("a long line")
        } else {
            parse_order(&line)
        };
        match order {
            Ok(order) => {
                orders += 1;
                write!(out, "order {orders} {order} ")?;
                match obey(&mut node, &order, setting.quiet, out)? {
                    Ok(()) => run.done += 1,
                    Err(number) => {
                        writeln!(out, "refused {number}")?;
                        run.refused.push(number);
                    }
                }
            }
            Err(message) => {
                run.bad_lines.push(lines);
                told(lines, message);
                if lines > MOST_LINES {
                    break;
                }
            }
        }
    }
    let report = node.report();
    put_report(out, &table, &bounds, &report)?;
    run.report = Some(report);
    Ok(run)
}

/// Does one order; if it is done, writes that and the slots that it ran.
fn obey(
    node: &mut Node,
    order: &Order,
    quiet: bool,
    out: &mut impl Write,
) -> io::Result<Result<(), Refused>> {
    if quiet {
        return match node.order(order, |_| ()) {
            Ok(()) => writeln!(out, "done").map(Ok),
            Err(number) => Ok(Err(number)),
        };
    }
    // Only a done order shows slots, but they come while it is done.
    let mut written = Ok(());
    let mut first = true;
    let outcome = node.order(order, |slot| {
        if first {
            written = writeln!(out, "done");
            first = false;
        }
        if written.is_ok() {
            written = writeln!(out, "{slot}");
        }
    });
    if outcome.is_ok() && first {
        written = writeln!(out, "done");
    }
    written.map(|()| outcome)
}

pub fn put_report(
    out: &mut impl Write,
    table: &Table,
    bounds: &[Bounds],
    report: &Report,
) -> io::Result<()> {
    writeln!(
        out,
        "clock {} level {} released {} closed {} finished {}",
        report.clock, report.level, report.released, report.closed, report.finished
    )?;
    let rows = table.tasks.iter().zip(bounds).zip(&report.longest);
    for (i, ((task, bounds), longest)) in rows.enumerate() {
        write!(out, "task {} ", i + 1)?;
        out.write_all(task.name)?;
        let longest = shown(*longest);
        let bound = shown(bounds.safe.window.map(u64::from));
        writeln!(out, " longest {longest} bound {bound}")?;
    }
    Ok(())
}

fn shown(number: Option<u64>) -> String {
    number.map_or("-".to_string(), |number| number.to_string())
}

#[cfg(test)]
mod tests {
    use super::*;
    use crate::files::{example, node, task};

    fn setting(words: &str) -> Result<Setting, &'static str> {
        let words: Vec<OsString> = words.split(' ').map(OsString::from).collect();
        parse(&words)
    }

    /// The text of a run, the lines told, and whether the status is 0.
    fn ran(words: &str, file: &[u8], orders: &[u8]) -> (String, Vec<usize>, bool) {
        let setting = setting(words).unwrap();
        let mut text = Vec::new();
        let mut told = Vec::new();
        let run = run(&setting, file, orders, &mut text, |line, _| told.push(line)).unwrap();
        assert_eq!(run.bad_lines, told);
        (String::from_utf8(text).unwrap(), told, run.good())
    }

    const TASKS: &str = "\
task 1 acq longest 4 bound 4
task 2 log longest 7 bound 7
task 3 tx longest - bound 21
";

    #[test]
    fn example_run() {
        let orders = b"release 1 1 40\nrelease 2 3 0\nslots 7\nrelease 1 1 40\nslots 1\n\
            release 1 1 40\nslots 0\n";
        let want = "\
table accepted
order 1 release 1 1 40 done
order 2 release 2 3 0 done
order 3 slots 7 done
slot 0 waited 1 harvest 10 draw 0 level 10 abandoned 0
slot 1 waited 1 harvest 10 draw 0 level 20 abandoned 0
slot 2 waited 1 harvest 10 draw 0 level 30 abandoned 0
slot 3 ran 1 finished 4 harvest 10 draw 40 level 0 abandoned 0
slot 4 ran 2 goes on harvest 10 draw 0 level 10 abandoned 0
slot 5 ran 2 goes on harvest 10 draw 0 level 20 abandoned 0
slot 6 ran 2 finished 7 harvest 10 draw 0 level 30 abandoned 0
order 4 release 1 1 40 refused 14
order 5 slots 1 done
slot 7 idle harvest 10 draw 0 level 40 abandoned 0
order 6 release 1 1 40 done
order 7 slots 0 done
clock 8 level 40 released 3 closed 2 finished 2
";
        let (text, _, good) = ran("t 0 steady 10", &example(), orders);
        assert_eq!(text, format!("{want}{TASKS}"));
        assert!(good);
        let quiet: String = format!("{want}{TASKS}")
            .split_inclusive('\n')
            .filter(|line| !line.starts_with("slot ") && !line.starts_with("table "))
            .collect();
        let (text, _, good) = ran("--quiet t 0 steady 10", &example(), orders);
        assert_eq!(text, quiet);
        assert!(good);
    }

    #[test]
    fn not_accepted_and_no_orders() {
        let file = [node(10, 0, 90), task(2, 5, 3, 30, b"late")].concat();
        let want = "\
table not accepted
clock 0 level 90 released 0 closed 0 finished 0
task 1 late longest - bound -
";
        for orders in [&b""[..], b"\n", b"\n\n\n"] {
            assert_eq!(
                ran("t 90 trace 10,99", &file, orders),
                (want.into(), vec![], true)
            );
        }
        let (text, _, _) = ran("t 0 steady 10", &file, b"release 1 2 30\nslots 3");
        let last = "slot 2 ran 1 goes on harvest 10 draw 30 level 0 abandoned 1\n";
        assert!(text.contains(last), "{text}");
    }

    #[test]
    fn refused_file_or_start() {
        assert_eq!(
            ran("t 0 steady 10", b"abc", b"slots 1\n"),
            ("refused 1 at 0\n".into(), vec![], false)
        );
        for (words, number) in [
            ("t 0 steady 9", 9),
            ("t 101 trace none", 9),
            ("t 101 steady 10", 10),
        ] {
            let want = format!("table accepted\nstart refused {number}\n");
            let got = ran(words, &example(), b"what\nslots 1\n");
            assert_eq!(got, (want, vec![], false));
        }
    }

    #[test]
    fn lines_that_are_no_orders() {
        for line in [
            "x",
            " ",
            "slots",
            "slots ",
            " slots 1",
            "slots 1 ",
            "slots  1",
            "slots 1 1",
            "slots\t1",
            "slots +1",
            "slots -1",
            "slots 1.0",
            "slots 0x1",
            "slots 4294967296",
            "slots 18446744073709551616",
            "slots 1\r",
            "Slots 1",
            "release 1 1",
            "release 1 1 40 1",
            "release 256 1 40",
            "release 1 65536 40",
            "release 1 1 18446744073709551616",
            "release 1 1 ",
            "release 1 1 99999999999999999999999",
        ] {
            let orders = format!("slots 1\n\n{line}\nslots 2\n");
            let (text, told, good) = ran("--quiet t 0 steady 10", &example(), orders.as_bytes());
            assert_eq!((told, good), (vec![3], false), "{line}");
            assert!(text.contains("order 2 slots 2 done\nclock 3 "), "{line}");
        }
        let (_, told, _) = ran("t 0 steady 10", &example(), b"\xff\nslots 1\n\0\n\xff");
        assert_eq!(told, [1, 3, 4]);
    }

    #[test]
    fn numbers_may_begin_with_zeros() {
        let orders = b"release 001 01 00000000000000000000000000000040\nslots 00";
        let (text, _, good) = ran("t 000 steady 010", &example(), orders);
        assert!(text.contains("\norder 1 release 1 1 40 done\norder 2 slots 0 done\n"));
        assert!(good);
    }

    #[test]
    fn greatest_numbers_are_read() {
        let orders = b"release 255 65535 18446744073709551615\nslots 4294967295\n";
        let (text, _, good) = ran("t 0 steady 4294967295", &example(), orders);
        let want = "\
table accepted
order 1 release 255 65535 18446744073709551615 refused 11
order 2 slots 4294967295 refused 15
clock 0 ";
        assert!(text.starts_with(want), "{text}");
        assert!(good);
    }

    #[test]
    fn long_and_many_lines() {
        let padded = |size: usize| format!("slots {:0>1$}\n", 1, size - 6).into_bytes();
        assert_eq!(padded(200).len(), 201);
        for size in [201, 202, 5_000] {
            let orders = [padded(200), padded(size), padded(200)].concat();
            let (text, told, good) = ran("--quiet t 0 steady 10", &example(), &orders);
            assert_eq!((told, good), (vec![2], false));
            assert!(text.contains("\nclock 2 "));
        }
        // Without an end of line.
        let (_, told, _) = ran("t 0 steady 10", &example(), &padded(201)[..201]);
        assert_eq!(told, [1]);
        let (_, told, _) = ran("t 0 steady 10", &example(), &padded(200)[..200]);
        assert!(told.is_empty());

        let orders = b"slots 1\n".repeat(MOST_LINES);
        let (text, told, good) = ran("--quiet t 0 steady 10", &example(), &orders);
        assert_eq!((told, good), (vec![], true));
        assert!(text.contains("\norder 4096 slots 1 done\nclock 4096 "));
        let orders = b"slots 1\n".repeat(MOST_LINES + 2);
        let (text, told, good) = ran("--quiet t 0 steady 10", &example(), &orders);
        assert_eq!((told, good), (vec![4_097], false));
        assert!(text.contains("\norder 4096 slots 1 done\nclock 4096 "));
    }

    #[test]
    fn harvester_words() {
        let steady = Harvester::steady;
        let trace = Harvester::trace;
        for (words, want) in [
            ("steady 4294967295", steady(1_000_000_000)),
            ("trace none", trace(&[])),
            ("trace 7", trace(&[7])),
            ("trace 7,8,9", trace(&[7, 8, 9])),
            (
                "converter 65535 steady 3",
                Harvester::converter(256, steady(3)),
            ),
            (
                "converter 0 trace 1,2",
                Harvester::converter(0, trace(&[1, 2])),
            ),
            (
                "pair steady 1 trace 2,3",
                Harvester::pair(steady(1), trace(&[2, 3])),
            ),
            (
                "pair steady 1 trace none",
                Harvester::pair(steady(1), trace(&[])),
            ),
        ] {
            assert_eq!(setting(&format!("t 0 {words}")).unwrap().harvester, want);
        }
        let list = ["1"; MOST_SAMPLES].join(",");
        assert!(setting(&format!("t 0 trace {list}")).is_ok());
        assert!(setting(&format!("t 0 trace {list},1")).is_err());
    }

    #[test]
    fn wrong_arguments() {
        for words in [
            "",
            "--quiet",
            "t",
            "t 0",
            "--quiet t 0",
            "t 0 steady",
            "t 0 trace",
            "t 0 steady 1 1",
            "t 0 steady x",
            "t 0 steady -1",
            "t 0 steady +1",
            "t 0 steady 4294967296",
            "t 0 steady 1 --quiet",
            "t x steady 1",
            "t  steady 1",
            "t -1 steady 1",
            "t 18446744073709551616 steady 1",
            "t 0 solar 1",
            "t 0 none",
            "t 0 trace 1,,2",
            "t 0 trace ,",
            "t 0 trace 1,",
            "t 0 trace ",
            "t 0 trace 1,4294967296",
            "t 0 trace none,1",
            "t 0 trace 1 2",
            "t 0 converter",
            "t 0 converter 1",
            "t 0 converter steady 1",
            "t 0 converter 65536 steady 1",
            "t 0 converter 1 converter 1 steady 1",
            "t 0 converter 1 pair steady 1 trace 1",
            "t 0 pair steady 1 steady 1",
            "t 0 pair trace 1 steady 1",
            "t 0 pair trace 1 trace 1",
            "t 0 pair steady 1 trace",
            "t 0 pair steady 1",
            "--quiet --quiet t 0 steady 1",
        ] {
            assert!(setting(words).is_err(), "{words}");
        }
    }
}
