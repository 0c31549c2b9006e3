//! Reading a table file: a lawful table, or a refusal with number and place.

pub const MOST_TASKS: usize = 16;
pub const MOST_RATE: u32 = 1_000_000_000;
pub const MOST_CAP: u64 = 8_000_000_000;
pub const MOST_UNITS: u32 = 500;
pub const MOST_PERIOD: u32 = 100_000;

pub const NODE_KIND: u16 = 1;
pub const TASK_KIND: u16 = 2;
pub const NODE_LENGTH: usize = 24;
/// Bytes of a task record before its name.
pub const TASK_HEAD: usize = 22;
pub const MOST_NAME: usize = 12;

#[derive(Debug, Clone, PartialEq, Eq)]
pub struct Task<'a> {
    pub units: u32,
    pub period: u32,
    pub deadline: u32,
    pub draw: u64,
    pub name: &'a [u8],
}

/// Holds only values within their limits. More urgent tasks come first.
#[derive(Debug, Clone, PartialEq, Eq)]
pub struct Table<'a> {
    pub rate: u32,
    pub floor: u64,
    pub cap: u64,
    pub tasks: Vec<Task<'a>>,
}

/// Why a file is refused, and the byte where the record at fault starts.
#[derive(Debug, Clone, Copy, PartialEq, Eq)]
pub struct Refusal {
    pub number: u8,
    pub place: usize,
}

fn u16_at(bytes: &[u8], at: usize) -> u16 {
    u16::from_le_bytes([bytes[at], bytes[at + 1]])
}

fn u32_at(bytes: &[u8], at: usize) -> u32 {
    u32::from_le_bytes(bytes[at..at + 4].try_into().unwrap())
}

fn u64_at(bytes: &[u8], at: usize) -> u64 {
    u64::from_le_bytes(bytes[at..at + 8].try_into().unwrap())
}

/// Reads the whole file; the first record at fault, by its first failing
/// check, makes the refusal.
pub fn load(file: &[u8]) -> Result<Table<'_>, Refusal> {
    let mut table = None;
    let mut place = 0;
    while place < file.len() {
        let record = record_at(&file[place..])
            .and_then(|record| add(&mut table, record).map(|()| record))
            .map_err(|number| Refusal { number, place })?;
        place += record.len();
    }
    table.ok_or(Refusal {
        number: 4,
        place: 0,
    })
}

/// The record at the front of `left`: whole, of a known kind and with a
/// length that this kind has.
fn record_at(left: &[u8]) -> Result<&[u8], u8> {
    if left.len() < 4 {
        return Err(1);
    }
    let length = usize::from(u16_at(left, 0));
    if length < 4 {
        return Err(3);
    }
    if length > left.len() {
        return Err(1);
    }
    let fits = match u16_at(left, 2) {
        NODE_KIND => length == NODE_LENGTH,
        TASK_KIND => (TASK_HEAD + 1..=TASK_HEAD + MOST_NAME).contains(&length),
        _ => return Err(2),
    };
    if !fits {
        return Err(3);
    }
    Ok(&left[..length])
}

/// Takes one record into the table; a node record begins it.
fn add<'a>(table: &mut Option<Table<'a>>, record: &'a [u8]) -> Result<(), u8> {
    match (table, u16_at(record, 2)) {
        (table @ None, NODE_KIND) => {
            *table = Some(read_node(record)?);
            Ok(())
        }
        (Some(table), TASK_KIND) => {
            if table.tasks.len() == MOST_TASKS {
                return Err(6);
            }
            let task = read_task(record, table.cap - table.floor)?;
            table.tasks.push(task);
            Ok(())
        }
        _ => Err(4),
    }
}

fn read_node<'a>(record: &[u8]) -> Result<Table<'a>, u8> {
    let rate = u32_at(record, 4);
    let floor = u64_at(record, 8);
    let cap = u64_at(record, 16);
    if !(1..=MOST_RATE).contains(&rate) || floor > cap || cap > MOST_CAP {
        return Err(5);
    }
    Ok(Table {
        rate,
        floor,
        cap,
        tasks: Vec::with_capacity(MOST_TASKS),
    })
}

/// `room` is cap - floor, the most that one unit may draw.
fn read_task(record: &[u8], room: u64) -> Result<Task<'_>, u8> {
    let units = u32::from(u16_at(record, 4));
    let period = u32_at(record, 6);
    let deadline = u32_at(record, 10);
    let draw = u64_at(record, 14);
    let name = &record[TASK_HEAD..];
    if !(1..=MOST_UNITS).contains(&units)
        || period > MOST_PERIOD
        || deadline < units
        || deadline > period
    {
        return Err(5);
    }
    if draw > room {
        return Err(8);
    }
    if !name.iter().all(u8::is_ascii_graphic) {
        return Err(7);
    }
    Ok(Task {
        units,
        period,
        deadline,
        draw,
        name,
    })
}

/// A table of tasks by units, period, deadline and draw, all of one name.
#[cfg(test)]
pub fn of_numbers(
    rate: u32,
    floor: u64,
    cap: u64,
    tasks: &[(u32, u32, u32, u64)],
) -> Table<'static> {
    Table {
        rate,
        floor,
        cap,
        tasks: tasks
            .iter()
            .map(|&(units, period, deadline, draw)| Task {
                units,
                period,
                deadline,
                draw,
                name: b"a",
            })
            .collect(),
    }
}

#[cfg(test)]
mod tests {
    use super::*;
    use crate::files::{example, node, task};

    fn refusal(records: &[Vec<u8>]) -> (u8, usize) {
        let file = records.concat();
        let refusal = load(&file).unwrap_err();
        (refusal.number, refusal.place)
    }

    #[test]
    fn example_is_read() {
        let file = example();
        assert_eq!(file.len(), 98);
        let table = load(&file).unwrap();
        assert_eq!((table.rate, table.floor, table.cap), (10, 0, 100));
        assert_eq!(
            table.tasks[2],
            Task {
                units: 1,
                period: 30,
                deadline: 21,
                draw: 25,
                name: b"tx"
            }
        );
    }

    #[test]
    fn cut_example() {
        let file = example();
        for (start, next) in [(0, 24), (24, 49), (49, 74), (74, 98)] {
            for end in start + 1..next {
                assert_eq!(refusal(&[file[..end].to_vec()]), (1, start));
            }
            assert!(load(&file[..next]).is_ok());
        }
        assert_eq!(refusal(&[]), (4, 0));
    }

    #[test]
    fn lengths_and_kinds() {
        assert_eq!(refusal(&[vec![0xff, 0xff, 1, 0]]), (1, 0));
        for length in 0..4 {
            assert_eq!(refusal(&[vec![length, 0, 9, 9]]), (3, 0));
        }
        assert_eq!(refusal(&[vec![4, 0, 1, 0]]), (3, 0));
        assert_eq!(refusal(&[vec![4, 0, 2, 0]]), (3, 0));
        assert_eq!(refusal(&[vec![4, 0, 0, 0]]), (2, 0));
        assert_eq!(refusal(&[vec![4, 0, 1, 1]]), (2, 0));
        assert_eq!(refusal(&[vec![5, 0, 7, 0]]), (1, 0));
        let head = node(10, 0, 100);
        assert_eq!(refusal(&[head.clone(), task(1, 1, 1, 0, b"")]), (3, 24));
        assert_eq!(refusal(&[head, task(1, 1, 1, 0, &[b'a'; 13])]), (3, 24));
    }

    #[test]
    fn node_limits() {
        for (rate, floor, cap, lawful) in [
            (0, 0, 0, false),
            (1, 0, 0, true),
            (1_000_000_000, 0, 8_000_000_000, true),
            (1_000_000_001, 0, 8_000_000_000, false),
            (1, 0, 8_000_000_001, false),
            (1, 7, 7, true),
            (1, 8, 7, false),
            (1, u64::MAX, u64::MAX, false),
            (1, u64::MAX, 5, false),
        ] {
            let file = node(rate, floor, cap);
            let want = if lawful { None } else { Some(5) };
            assert_eq!(load(&file).err().map(|r| r.number), want, "{file:?}");
        }
    }

    #[test]
    fn task_limits() {
        for (units, period, deadline, draw, name, number) in [
            (0, 9, 9, 0, b"a", 5),
            (1, 1, 1, 0, b"a", 0),
            (500, 500, 500, 0, b"a", 0),
            (501, 900, 900, 0, b"a", 5),
            (1, 100_000, 100_000, 0, b"a", 0),
            (1, 100_001, 100_000, 0, b"a", 5),
            (3, 9, 2, 0, b"a", 5),
            (3, 9, 10, 0, b"a", 5),
            (1, 9, 9, 90, b"a", 0),
            (1, 9, 9, 91, b"a", 8),
            (1, 9, 9, u64::MAX, b"a", 8),
            (1, 9, 9, 91, b" ", 8),
            (0, 9, 9, 91, b" ", 5),
            (1, 9, 9, 90, b" ", 7),
            (1, 9, 9, 90, b"!", 0),
            (1, 9, 9, 90, b"~", 0),
            (1, 9, 9, 90, b"\x7f", 7),
        ] {
            let file = [node(1, 10, 100), task(units, period, deadline, draw, name)].concat();
            let want = if number == 0 {
                None
            } else {
                Some((number, 24))
            };
            let got = load(&file).err().map(|r| (r.number, r.place));
            assert_eq!(got, want, "{units} {period} {deadline} {draw}");
        }
    }

    #[test]
    fn order_of_records() {
        let head = node(1, 10, 100);
        let good = task(1, 9, 9, 0, b"a");
        let bad = task(0, 9, 9, 91, b" ");
        assert_eq!(refusal(std::slice::from_ref(&good)), (4, 0));
        assert_eq!(refusal(std::slice::from_ref(&bad)), (4, 0));
        assert_eq!(refusal(&[head.clone(), node(0, 1, 0)]), (4, 24));
        let mut records = vec![head];
        records.extend(std::iter::repeat_n(good, 16));
        assert!(load(&records.concat()).is_ok());
        records.push(bad);
        assert_eq!(refusal(&records), (6, 24 + 16 * 23));
        records[17] = node(0, 1, 0);
        assert_eq!(refusal(&records), (4, 24 + 16 * 23));
        records[17] = task(0, 9, 9, 91, b"");
        assert_eq!(refusal(&records), (3, 24 + 16 * 23));
    }
}
