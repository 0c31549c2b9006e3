//! A seeded generator, and the makers of random lawful and damaged files.

use crate::bounds::bounds;
use crate::files::{node, record, task};
use crate::table::{
    MOST_CAP, MOST_NAME, MOST_PERIOD, MOST_RATE, MOST_TASKS, MOST_UNITS, TASK_HEAD, load,
};

/// splitmix64.
pub struct Random(u64);

impl Random {
    pub fn new(seed: u64) -> Self {
        Random(seed)
    }

    pub fn word(&mut self) -> u64 {
        self.0 = self.0.wrapping_add(0x9e37_79b9_7f4a_7c15);
        let mut word = self.0;
        word = (word ^ (word >> 30)).wrapping_mul(0xbf58_476d_1ce4_e5b9);
        word = (word ^ (word >> 27)).wrapping_mul(0x94d0_49bb_1331_11eb);
        word ^ (word >> 31)
    }

    /// From 0 to `end` - 1.
    pub fn below(&mut self, end: u64) -> u64 {
        self.word() % end
    }

    /// From `low` to `high`, both included.
    pub fn between(&mut self, low: u64, high: u64) -> u64 {
        low + self.below(high - low + 1)
    }

    pub fn one_in(&mut self, count: u64) -> bool {
        self.below(count) == 0
    }

    pub fn pick<T: Copy>(&mut self, items: &[T]) -> T {
        items[self.below(items.len() as u64) as usize]
    }

    pub fn index(&mut self, count: usize) -> usize {
        self.below(count as u64) as usize
    }
}

/// Somewhat more than half of the files are lawful.
pub fn file(random: &mut Random) -> Vec<u8> {
    if random.below(100) < 55 {
        lawful(random).concat()
    } else {
        damaged(random)
    }
}

/// The same with further damage in one file of three: bytes added, taken
/// out, written over or cut off, wherever records begin and end.
pub fn rough_file(random: &mut Random) -> Vec<u8> {
    let mut file = file(random);
    if !random.one_in(3) {
        return file;
    }
    let at = random.index(file.len() + 1);
    let count = random.between(1, 40) as usize;
    let end = (at + count).min(file.len());
    let byte = |random: &mut Random| {
        let any = random.word() as u8;
        random.pick(&[0, 1, 2, 4, 24, 34, b'a', 0xff, any, any])
    };
    match random.below(5) {
        0 => {
            let added: Vec<u8> = (0..count).map(|_| byte(random)).collect();
            file.splice(at..at, added);
        }
        1 => {
            file.drain(at..end);
        }
        2 => {
            for place in &mut file[at..end] {
                *place = byte(random);
            }
        }
        3 => file.truncate(at),
        // A part once more, so that records come twice or in pieces.
        _ => {
            let part = file[at..end].to_vec();
            let place = random.index(file.len() + 1);
            file.splice(place..place, part);
        }
    }
    file
}

/// How the draws of a table lie to its rate.
#[derive(Clone, Copy, PartialEq, Eq)]
pub enum Draws {
    Below,
    Above,
    Across,
    Ends,
}

/// The records of a lawful file.
pub fn lawful(random: &mut Random) -> Vec<Vec<u8>> {
    let rate = match random.below(4) {
        0 => random.between(1, 20),
        1 => random.between(1, 1_000),
        2 => random.between(1, MOST_RATE.into()),
        _ => random.pick(&[1, 2, 3, 999_999_999, MOST_RATE.into()]),
    };
    let room = match random.below(8) {
        0 => MOST_CAP,
        1 => random.below(rate),
        _ => (rate * random.between(2, 10) + random.below(rate)).min(MOST_CAP),
    };
    let draws = if room <= rate {
        Draws::Below
    } else {
        random.pick(&[Draws::Below, Draws::Above, Draws::Across, Draws::Ends])
    };
    let floor = match random.below(3) {
        0 => 0,
        1 => MOST_CAP - room,
        _ => random.between(0, MOST_CAP - room),
    };
    let mut records = vec![node(rate as u32, floor, floor + room)];

    let count = random.between(0, MOST_TASKS as u64) as usize;
    // Shares of the target utilisation, in millionths.
    let target = 1_000 * random.pick(&[100, 300, 500, 700, 800, 900, 970, 1_000, 1_100, 2_000]);
    let weights: Vec<u64> = (0..count).map(|_| random.between(1, 100)).collect();
    let sum: u64 = weights.iter().sum();
    let most_units = random.pick(&[1, 3, 10, 50, 500]);
    let tight = random.one_in(3);
    let wild = random.one_in(4);

    let mut tasks = Vec::new();
    for weight in weights {
        let units = match random.below(8) {
            0 => most_units,
            _ => random.between(1, most_units),
        };
        let draw = any_draw(random, draws, rate, room);
        let slots = (units * draw.max(rate)).div_ceil(rate);
        let share = (target * weight / sum).max(1);
        let period = match random.below(12) {
            0 if wild => MOST_PERIOD.into(),
            1 if wild => random.between(units, MOST_PERIOD.into()),
            2 if wild => units,
            _ => (slots * 1_000_000).div_ceil(share),
        };
        let period = period.clamp(units, MOST_PERIOD.into());
        let deadline = match random.below(if tight { 4 } else { 40 }) {
            0 => random.between(units, period),
            1 => random.between(units.max(period / 2), period),
            2 if tight => units,
            _ => period,
        };
        tasks.push((units, period, deadline, draw));
    }
    if !random.one_in(4) {
        tasks.sort_by_key(|&(_, period, _, _)| period);
    }
    for (units, period, deadline, draw) in tasks {
        let name = any_name(random);
        records.push(task(
            units as u16,
            period as u32,
            deadline as u32,
            draw,
            &name,
        ));
    }
    if count > 0 && random.one_in(3) {
        let last = random.between(1, count as u64) as usize;
        tighten(random, &mut records, last);
    }
    records
}

pub fn any_draw(random: &mut Random, draws: Draws, rate: u64, room: u64) -> u64 {
    let above = match draws {
        Draws::Below => false,
        Draws::Above => true,
        Draws::Across => random.one_in(2),
        Draws::Ends => return random.pick(&[0, room, rate, rate + 1, rate - 1]),
    };
    match (above, random.below(6)) {
        (false, 0) => 0,
        (false, 1) => rate.min(room),
        (false, _) => random.between(0, rate.min(room)),
        (true, 0) => rate + 1,
        (true, 1) => room,
        // Mostly little above the rate, so that larger tables fit too.
        (true, 2) => random.between(rate + 1, room),
        (true, _) => random.between(rate + 1, room.min(2 * rate)),
    }
}

pub fn any_name(random: &mut Random) -> Vec<u8> {
    if random.one_in(8) {
        return random
            .pick(&[&b"-"[..], b"accepted", b"!", b"~~~~~~~~~~~~", b"0"])
            .to_vec();
    }
    let size = random.between(1, MOST_NAME as u64);
    (0..size)
        .map(|_| random.between(0x21, 0x7e) as u8)
        .collect()
}

/// Puts a task's deadline onto one of its bounds, or one slot below it.
fn tighten(random: &mut Random, records: &mut [Vec<u8>], at: usize) {
    let period: [u8; 4] = records[at][6..10].try_into().unwrap();
    put(&mut records[at], 10, &period);
    let file = records.concat();
    let table = load(&file).expect("a lawful file");
    let found = bounds(&table)[at - 1];
    let bound = random.pick(&[found.time, found.greater, found.safe, found.safe]);
    if let Some(window) = bound.window {
        let deadline = window - random.below(2) as u32;
        let deadline = deadline.max(table.tasks[at - 1].units);
        put(&mut records[at], 10, &deadline.to_le_bytes());
    }
}

fn put(record: &mut [u8], at: usize, bytes: &[u8]) {
    record[at..at + bytes.len()].copy_from_slice(bytes);
}

/// A file with one or more faults; a few come out lawful all the same.
pub fn damaged(random: &mut Random) -> Vec<u8> {
    let mut records = lawful(random);
    match random.below(14) {
        0 | 1 => {
            let mut file = records.concat();
            file.truncate(random.index(file.len()));
            return file;
        }
        2 => return flipped(random, records.concat()),
        3 => return noise(random),
        4 => wrong_length(random, &mut records),
        5 => wrong_kind(random, &mut records),
        6 => too_many(random, &mut records),
        7 => out_of_order(random, &mut records),
        8 => bad_node(random, &mut records[0]),
        9 => change_task(random, &mut records, Fault::Field),
        10 => change_task(random, &mut records, Fault::Draw),
        11 => change_task(random, &mut records, Fault::Name),
        12 => change_task(random, &mut records, Fault::Size),
        _ => {
            for _ in 0..random.between(2, 4) {
                let fault = random.pick(&[Fault::Field, Fault::Draw, Fault::Name]);
                change_task(random, &mut records, fault);
            }
            if random.one_in(3) {
                wrong_kind(random, &mut records);
            }
            if random.one_in(3) {
                wrong_length(random, &mut records);
            }
        }
    }
    records.concat()
}

fn flipped(random: &mut Random, mut file: Vec<u8>) -> Vec<u8> {
    for _ in 0..random.between(1, 4) {
        let at = random.index(file.len());
        file[at] ^= 1 << random.below(8);
    }
    file
}

/// Random bytes, at times with a believable header in front.
fn noise(random: &mut Random) -> Vec<u8> {
    let size = match random.below(3) {
        0 => random.below(8),
        1 => random.below(64),
        _ => random.below(1_200),
    };
    let mut file: Vec<u8> = (0..size).map(|_| random.word() as u8).collect();
    if file.len() >= 4 && random.one_in(2) {
        put(&mut file, 0, &[random.below(40) as u8, 0]);
        put(&mut file, 2, &[random.below(4) as u8, 0]);
    }
    file
}

fn wrong_length(random: &mut Random, records: &mut [Vec<u8>]) {
    let at = random.index(records.len());
    let length = records[at].len() as u16;
    let other = random.word() as u16;
    let length = random.pick(&[
        0,
        1,
        2,
        3,
        4,
        22,
        23,
        24,
        25,
        34,
        35,
        0xffff,
        length - 1,
        length + 1,
        length + 256,
        other,
    ]);
    put(&mut records[at], 0, &length.to_le_bytes());
}

fn wrong_kind(random: &mut Random, records: &mut [Vec<u8>]) {
    let at = random.index(records.len());
    let other = random.word() as u16;
    let kind = random.pick(&[0, 1, 2, 3, 0x0100, 0x0101, 0x0102, 0x0200, 0xffff, other]);
    put(&mut records[at], 2, &kind.to_le_bytes());
}

/// Seventeen tasks or some more; a late one may have faults as well.
fn too_many(random: &mut Random, records: &mut Vec<Vec<u8>>) {
    let count = random.between(17, 19) as usize;
    while records.len() < count + 1 {
        let name = any_name(random);
        records.push(task(1, 1_000, 1_000, 0, &name));
    }
    if random.one_in(2) {
        let fault = random.pick(&[Fault::Field, Fault::Draw, Fault::Name, Fault::Size]);
        spoil(random, &mut records[17], fault);
    }
}

fn out_of_order(random: &mut Random, records: &mut Vec<Vec<u8>>) {
    match random.below(4) {
        0 => {
            records.remove(0);
        }
        1 => {
            let at = random.index(records.len());
            records.swap(0, at);
        }
        2 => {
            let at = random.index(records.len() + 1);
            records.insert(at, node(1, 0, 0));
        }
        _ => {
            let at = random.index(records.len() + 1);
            let size = random.index(33);
            records.insert(at, record(random.between(0, 4) as u16, &vec![b'a'; size]));
        }
    }
}

fn bad_node(random: &mut Random, record: &mut [u8]) {
    let extreme = random.pick(&[MOST_CAP + 1, MOST_CAP + 2, 1 << 63, u64::MAX]);
    match random.below(4) {
        0 => {
            let rate = random.pick(&[0, MOST_RATE + 1, 1 << 31, u32::MAX]);
            put(record, 4, &rate.to_le_bytes());
        }
        1 => {
            let cap: [u8; 8] = record[16..24].try_into().unwrap();
            let floor = u64::from_le_bytes(cap) + 1;
            put(record, 8, &floor.to_le_bytes());
        }
        2 => put(record, 8, &extreme.to_le_bytes()),
        _ => put(record, 16, &extreme.to_le_bytes()),
    }
}

#[derive(Clone, Copy)]
enum Fault {
    Field,
    Draw,
    Name,
    Size,
}

/// Spoils one task record; a table without tasks gets one first.
fn change_task(random: &mut Random, records: &mut Vec<Vec<u8>>, fault: Fault) {
    if records.len() == 1 {
        records.push(task(1, 10, 10, 0, b"only"));
    }
    let at = 1 + random.index(records.len() - 1);
    spoil(random, &mut records[at], fault);
}

fn spoil(random: &mut Random, record: &mut Vec<u8>, fault: Fault) {
    match fault {
        Fault::Field => bad_field(random, record),
        Fault::Draw => bad_draw(random, record),
        Fault::Name => bad_name(random, record),
        Fault::Size => bad_size(random, record),
    }
}

/// Units, period or deadline just outside the limits, or just inside.
fn bad_field(random: &mut Random, record: &mut [u8]) {
    let units = u32::from(record[4]) + 256 * u32::from(record[5]);
    let period = u32::from_le_bytes(record[6..10].try_into().unwrap());
    match random.below(3) {
        0 => {
            let most = MOST_UNITS as u16;
            let units: u16 = random.pick(&[0, most, most + 1, 0x0100, 0xffff]);
            put(record, 4, &units.to_le_bytes());
        }
        1 => {
            let most = MOST_PERIOD;
            let period = random.pick(&[0, units.wrapping_sub(1), most, most + 1, u32::MAX]);
            put(record, 6, &period.to_le_bytes());
        }
        _ => {
            let deadline = random.pick(&[
                0,
                units,
                units.wrapping_sub(1),
                period,
                period.wrapping_add(1),
                u32::MAX,
            ]);
            put(record, 10, &deadline.to_le_bytes());
        }
    }
}

fn bad_draw(random: &mut Random, record: &mut [u8]) {
    let draw = random.pick(&[MOST_CAP, MOST_CAP + 1, 1 << 32, 1 << 63, u64::MAX]);
    put(record, 14, &draw.to_le_bytes());
}

fn bad_name(random: &mut Random, record: &mut [u8]) {
    let at = TASK_HEAD + random.index(record.len() - TASK_HEAD);
    record[at] = random.pick(&[0x00, 0x0a, 0x1f, 0x20, 0x7f, 0x80, 0xff]);
}

/// A name of no bytes or of too many, with a length field to match.
fn bad_size(random: &mut Random, record: &mut Vec<u8>) {
    let size = random.pick(&[0, MOST_NAME + 1, MOST_NAME + 2]);
    record.resize(TASK_HEAD + size, b'z');
    let length = record.len() as u16;
    put(record, 0, &length.to_le_bytes());
}

#[cfg(test)]
mod tests {
    use super::*;

    #[test]
    fn same_seed_same_files() {
        let (mut one, mut two) = (Random::new(5), Random::new(5));
        for _ in 0..50 {
            assert_eq!(file(&mut one), file(&mut two));
            assert_eq!(rough_file(&mut one), rough_file(&mut two));
        }
    }

    #[test]
    fn lawful_files_load() {
        let mut random = Random::new(1);
        for _ in 0..500 {
            let file = lawful(&mut random).concat();
            assert!(load(&file).is_ok(), "{file:02x?}");
        }
    }

    #[test]
    fn first_words() {
        // Known first outputs of splitmix64 from seed 0.
        let mut random = Random::new(0);
        assert_eq!(random.word(), 0xe220_a839_7b1d_cdaf);
        assert_eq!(random.word(), 0x6e78_9e6a_a1b9_65f4);
    }
}
