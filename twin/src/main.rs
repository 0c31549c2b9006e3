//! The twin: tablecheck and noderun a second time, and the comparison of both.

mod bench;
mod bounds;
mod compare;
mod compare_node;
mod files;
mod histories;
mod listing;
mod long;
mod node;
mod node_edges;
mod noderun;
mod process;
mod random;
mod table;

use std::ffi::OsString;
use std::io::{self, Read, Write};
use std::process::ExitCode;

use bench::Load;
use listing::Outcome;
use node::{Harvester, Node};

const HELP: &str = "\
twin: tablecheck and noderun a second time, and the comparison of both

  twin tablecheck                   read a table file, print its listing;
                                    status 0 if the table is accepted, else 1
  twin noderun ARGUMENTS            run a node over a table by orders read
                                    from standard input, print what happens;
                                    status 0 if all went well, else 1
  twin compare PROGRAM SEED COUNT   run PROGRAM as a tablecheck on edge files
                                    and on COUNT random files and compare
                                    the answers
  twin compare-node PROGRAM SEED COUNT
                                    run PROGRAM as a noderun on edge
                                    histories and on COUNT random ones and
                                    compare the answers
  twin bench-node COUNT             run a busy node for COUNT slots by one
                                    order, print its report
  twin long TABLECHECK NODERUN SEED SECONDS
                                    do both for so many seconds, with new
                                    random cases in each round; stop at the
                                    first difference and keep its files
  twin example                      write the example file
  twin worst                        write a table of 2 tasks, the last with
                                    100,000 rounds on each curve
  twin heavy                        write a table of 16 tasks, most of them
                                    with long searches
  twin largest                      write a table of 16 tasks and 568 bytes
  twin rounds TASKS ROUNDS          write a table, its tasks but the first
                                    with so many rounds on each curve
  twin busy                         write a table of 16 tasks that keep a
                                    node busy for 10,000 slots
  twin busy TASKS                   write a table for a node that runs a unit
                                    in every slot
  twin busy-orders TASKS SLOTS      write the orders for so many such slots
  twin waiting TASKS                write a table for a node that waits with
                                    open jobs in every slot
  twin waiting-orders TASKS SLOTS   write the orders for so many such slots
  twin --help                       print this text
";

fn main() -> ExitCode {
    let arguments: Vec<OsString> = std::env::args_os().skip(1).collect();
    let lossy: Vec<_> = arguments
        .iter()
        .map(|word| word.to_string_lossy())
        .collect();
    let words: Vec<&str> = lossy.iter().map(AsRef::as_ref).collect();
    let done = match words[..] {
        ["tablecheck"] => tablecheck(),
        ["noderun", ..] => Ok(noderun::noderun(&arguments[1..])),
        ["compare", program, seed, count] => match (seed.parse(), count.parse()) {
            (Ok(seed), Ok(count)) => compare::compare(program, seed, count),
            _ => return usage(),
        },
        ["compare-node", program, seed, count] => match (seed.parse(), count.parse()) {
            (Ok(seed), Ok(count)) => compare_node::compare_node(program, seed, count),
            _ => return usage(),
        },
        ["bench-node", count] => match count.parse() {
            Ok(count) => bench_node(count),
            Err(_) => return usage(),
        },
        ["long", tablecheck, noderun, seed, seconds] => match (seed.parse(), seconds.parse()) {
            (Ok(seed), Ok(seconds)) => long::long(tablecheck, noderun, seed, seconds),
            _ => return usage(),
        },
        ["example"] => write(&files::example()),
        ["worst"] => write(&files::worst()),
        ["heavy"] => write(&files::heavy()),
        ["largest"] => write(&bench::largest()),
        ["rounds", tasks, rounds] => match (tasks.parse(), rounds.parse()) {
            (Ok(tasks), Ok(rounds)) => match bench::rounds(tasks, rounds) {
                Some(file) => write(&file),
                None => return usage(),
            },
            _ => return usage(),
        },
        ["busy"] => write(&files::busy()),
        ["busy" | "waiting", tasks] => match load(words[0], tasks) {
            Some(load) => write(&load.table()),
            None => return usage(),
        },
        ["busy-orders" | "waiting-orders", tasks, slots] => {
            match (load(words[0], tasks), slots.parse()) {
                (Some(load), Ok(slots)) => write(load.orders(slots).as_bytes()),
                _ => return usage(),
            }
        }
        ["--help" | "-h" | "help"] => write(HELP.as_bytes()),
        _ => return usage(),
    };
    match done {
        Ok(true) => ExitCode::SUCCESS,
        Ok(false) => ExitCode::from(1),
        Err(error) => {
            eprintln!("twin: {error}");
            ExitCode::from(2)
        }
    }
}

fn usage() -> ExitCode {
    eprint!("{HELP}");
    ExitCode::from(2)
}

/// The load of this word for so many tasks.
fn load(word: &str, tasks: &str) -> Option<Load> {
    let tasks = tasks.parse().ok()?;
    if word.starts_with("busy") {
        Load::busy(tasks)
    } else {
        Load::waiting(tasks)
    }
}

fn tablecheck() -> io::Result<bool> {
    let mut file = Vec::with_capacity(compare::MOST_BYTES);
    io::stdin()
        .lock()
        .take(compare::MOST_BYTES as u64)
        .read_to_end(&mut file)?;
    let listing = listing::list(&file);
    write(&listing.text)?;
    Ok(listing.outcome == Outcome::Accepted)
}

/// Releases every task of the busy table once, with full units and draws.
fn bench_node(count: u32) -> io::Result<bool> {
    let file = files::busy();
    let table = table::load(&file).expect("a lawful file");
    let harvester = Harvester::pair(Harvester::steady(4), Harvester::trace(&[6, 9, 30, 12]));
    let mut node = Node::start(&table, harvester, 0).expect("a lawful start");
    for (task, number) in table.tasks.iter().zip(1..) {
        node.release(number, task.units as u16, task.draw)
            .expect("a lawful release");
    }
    let outcome = node.slots(count, |_| ());
    let mut text = Vec::new();
    if let Err(number) = outcome {
        writeln!(text, "refused {number}")?;
    }
    noderun::put_report(&mut text, &table, &bounds::bounds(&table), &node.report())?;
    write(&text)?;
    Ok(outcome.is_ok())
}

fn write(bytes: &[u8]) -> io::Result<bool> {
    let mut out = io::stdout().lock();
    out.write_all(bytes)?;
    out.flush()?;
    Ok(true)
}
