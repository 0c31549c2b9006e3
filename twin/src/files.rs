//! Makers of records and the fixed files: example, long searches, edges.

use crate::table::{MOST_CAP, MOST_PERIOD, MOST_RATE, NODE_KIND, TASK_KIND};

/// A record with the right length field for its body.
pub fn record(kind: u16, body: &[u8]) -> Vec<u8> {
    let length = u16::try_from(4 + body.len()).expect("a short body");
    let mut bytes = length.to_le_bytes().to_vec();
    bytes.extend(kind.to_le_bytes());
    bytes.extend(body);
    bytes
}

pub fn node(rate: u32, floor: u64, cap: u64) -> Vec<u8> {
    let mut body = rate.to_le_bytes().to_vec();
    body.extend(floor.to_le_bytes());
    body.extend(cap.to_le_bytes());
    record(NODE_KIND, &body)
}

pub fn task(units: u16, period: u32, deadline: u32, draw: u64, name: &[u8]) -> Vec<u8> {
    let mut body = units.to_le_bytes().to_vec();
    body.extend(period.to_le_bytes());
    body.extend(deadline.to_le_bytes());
    body.extend(draw.to_le_bytes());
    body.extend(name);
    record(TASK_KIND, &body)
}

/// The worked example, 98 bytes.
pub fn example() -> Vec<u8> {
    example_records().concat()
}

fn example_records() -> Vec<Vec<u8>> {
    vec![
        node(10, 0, 100),
        task(1, 8, 8, 40, b"acq"),
        task(3, 12, 12, 0, b"log"),
        task(1, 30, 21, 25, b"tx"),
    ]
}

/// A table whose last task takes 100,000 rounds on each curve.
//
// The first task fills every slot, so the curve of the second is w + 1 and
// the window grows by one each round. More tasks would only shorten the
// search: beside a task with period 1 each further one adds at least 1 to
// every step, and without such a task at least a quarter of the slots sees
// no release, where no two neighbouring windows can both be tried.
pub fn worst() -> Vec<u8> {
    let rate = u64::from(MOST_RATE);
    [
        node(MOST_RATE, 0, MOST_CAP),
        task(1, 1, 1, rate, b"tick"),
        task(1, MOST_PERIOD, MOST_PERIOD, rate, b"last"),
    ]
    .concat()
}

/// The worst table filled up to 16 tasks: the step of a task's window is the
/// number of tasks before it, so the last task takes fewer rounds, but the
/// table as a whole costs more. No costlier one is known.
pub fn heavy() -> Vec<u8> {
    let rate = u64::from(MOST_RATE);
    let mut file = worst();
    for number in 3..=16 {
        let name = format!("long{number}");
        file.extend(task(1, MOST_PERIOD, MOST_PERIOD, rate, name.as_bytes()));
    }
    file
}

/// A table of 16 tasks that, all released together with full units and
/// draws, keep a node busy until the last deadline at a mean harvest of up to
/// nearly 20 in each slot.
pub fn busy() -> Vec<u8> {
    let mut file = node(10, 0, 1_000);
    for number in 1..=16 {
        let name = format!("busy{number}");
        file.extend(task(50, 10_000, 10_000, 180 + 8 * number, name.as_bytes()));
    }
    file
}

/// Files at, below and above each border, with a word on each.
pub fn edges() -> Vec<(String, Vec<u8>)> {
    let mut edges = Edges(Vec::new());
    edges.ends();
    edges.headers();
    edges.nodes();
    edges.tasks();
    edges.names();
    edges.order();
    edges.faults_together();
    edges.long_files();
    edges.lawful();
    edges.0
}

struct Edges(Vec<(String, Vec<u8>)>);

impl Edges {
    fn add(&mut self, note: impl Into<String>, records: &[Vec<u8>]) {
        self.0.push((note.into(), records.concat()));
    }

    /// A file of one node with room 90 and one task with these fields.
    fn add_task(&mut self, note: &str, fields: (u16, u32, u32, u64), name: &[u8]) {
        let (units, period, deadline, draw) = fields;
        let last = task(units, period, deadline, draw, name);
        let note = format!("{note}: units {units} period {period} deadline {deadline} draw {draw}");
        self.add(note, &[node(10, 10, 100), last]);
    }

    fn ends(&mut self) {
        let example = example();
        for end in 0..=example.len() {
            let file = example[..end].to_vec();
            self.add(format!("the example cut to {end} bytes"), &[file]);
        }
        for count in 1..4 {
            self.add(format!("{count} zero bytes"), &[vec![0; count]]);
            self.add(format!("{count} bytes 0xff"), &[vec![0xff; count]]);
            let note = format!("the example and {count} bytes more");
            self.add(note, &[example.clone(), vec![4, 0, 1][..count].to_vec()]);
        }
    }

    fn headers(&mut self) {
        for kind in [0, 1, 2, 3, 0xff] {
            for length in [0, 1, 2, 3, 4, 5, 22, 23, 24, 25, 34, 35, 255] {
                let note = format!("length {length} of kind {kind}");
                let alone = vec![length, 0, kind, 0];
                self.add(format!("{note}, 4 bytes"), std::slice::from_ref(&alone));
                let rest = [alone, vec![b'a'; 20]].concat();
                self.add(format!("{note}, 24 bytes"), std::slice::from_ref(&rest));
                let after = [node(10, 0, 100), rest];
                self.add(format!("{note}, after a node"), &after);
            }
            self.add("length 65535", &[vec![0xff, 0xff, kind, 0]]);
            self.add("length 256", &[vec![0, 1, kind, 0]]);
            let after = [node(10, 0, 100), vec![0xff, 0xff, kind, 0]];
            self.add("length 65535 after a node", &after);
        }
        for kind in [0, 3, 4, 0x0100, 0x0101, 0x0102, 0x0200, 0x0201, 0xffff] {
            for size in [0, 1, 19, 20, 30] {
                let odd = record(kind, &vec![b'a'; size]);
                let note = format!("kind {kind} with {size} bytes");
                self.add(format!("{note}, first"), std::slice::from_ref(&odd));
                self.add(format!("{note}, second"), &[node(10, 0, 100), odd.clone()]);
                self.add(format!("{note}, last"), &[example(), odd]);
            }
        }
        for size in [0, 1, 18, 19, 20, 21, 22, 30] {
            let body = vec![1; size];
            for kind in [NODE_KIND, TASK_KIND] {
                let sized = record(kind, &body);
                let note = format!("kind {kind} with {size} bytes");
                self.add(format!("{note}, first"), std::slice::from_ref(&sized));
                self.add(format!("{note}, last"), &[example(), sized]);
            }
        }
    }

    fn nodes(&mut self) {
        for rate in [0, 1, 2, 999_999_999, 1_000_000_000, 1_000_000_001, u32::MAX] {
            let note = format!("rate {rate}");
            self.add(note.clone(), &[node(rate, 0, 100)]);
            let last = task(1, 9, 9, 50, b"a");
            self.add(format!("{note} and a task"), &[node(rate, 0, 100), last]);
        }
        let top = MOST_CAP;
        for (floor, cap) in [
            (0, 0),
            (0, 1),
            (1, 0),
            (7, 7),
            (8, 7),
            (6, 7),
            (0, top - 1),
            (0, top),
            (0, top + 1),
            (top - 1, top),
            (top, top),
            (top + 1, top),
            (top + 1, top + 1),
            (top, top + 1),
            (0, 1 << 32),
            (1 << 32, 0xffff_ffff),
            (1 << 63, 1 << 63),
            (1 << 63, 5),
            (0, 1 << 63),
            (u64::MAX, 5),
            (5, u64::MAX),
            (u64::MAX, u64::MAX),
            (u64::MAX - 1, u64::MAX),
        ] {
            let note = format!("floor {floor} cap {cap}");
            self.add(note.clone(), &[node(1, floor, cap)]);
            for draw in [0, 1] {
                let last = task(1, 9, 9, draw, b"a");
                let note = format!("{note} and draw {draw}");
                self.add(note, &[node(1, floor, cap), last]);
            }
        }
    }

    fn tasks(&mut self) {
        for units in [0, 1, 2, 499, 500, 501, 0x0100, 0x7fff, 0x8000, 0xffff] {
            self.add_task("units", (units, 100_000, 100_000, 0), b"a");
            self.add_task("units", (units, u32::from(units), 65_535, 0), b"a");
            for step in [-1, 0, 1] {
                let near = i64::from(units) + step;
                let Ok(near) = u32::try_from(near) else {
                    continue;
                };
                self.add_task("deadline at units", (units, 70_000, near, 0), b"a");
                self.add_task("period at units", (units, near, near, 0), b"a");
                self.add_task("period at units", (units, near, units.into(), 0), b"a");
            }
        }
        for period in [
            0,
            1,
            2,
            65_536,
            99_999,
            100_000,
            100_001,
            1 << 31,
            u32::MAX - 1,
            u32::MAX,
        ] {
            for deadline in [
                0,
                1,
                period.saturating_sub(1),
                period,
                period.saturating_add(1),
                u32::MAX,
            ] {
                self.add_task("period", (1, period, deadline, 0), b"a");
            }
        }
        for draw in [0, 1, 9, 10, 11, 89, 90, 91, 100, 101] {
            self.add_task("draw", (1, 50, 50, draw), b"a");
            self.add_task("draw", (3, 50, 3, draw), b"a");
        }
        for draw in [1 << 32, 1 << 63, (1 << 63) - 1, u64::MAX - 9, u64::MAX] {
            self.add_task("draw", (1, 50, 50, draw), b"a");
        }
        let top = MOST_CAP;
        for draw in [top - 1, top, top + 1, u64::MAX] {
            for rate in [1, MOST_RATE] {
                let head = node(rate, 0, top);
                let last = task(500, 100_000, 100_000, draw, b"a");
                self.add(format!("draw {draw} rate {rate}"), &[head, last]);
            }
        }
    }

    fn names(&mut self) {
        for byte in [
            0x00, 0x0a, 0x1f, 0x20, 0x21, 0x2d, 0x7e, 0x7f, 0x80, 0xa1, 0xff,
        ] {
            self.add_task("name of one byte", (1, 9, 9, 0), &[byte]);
            for size in [2, 3, 12] {
                for at in [0, size / 2, size - 1] {
                    let mut name = vec![b'n'; size];
                    name[at] = byte;
                    let note = format!("name of {size} with byte {byte} at {at}");
                    self.add_task(&note, (1, 9, 9, 0), &name);
                }
            }
        }
        for size in 0..=14 {
            let note = format!("name of {size}");
            self.add_task(&note, (1, 9, 9, 0), &b"abcdefghijklmn"[..size]);
        }
    }

    fn order(&mut self) {
        let head = node(10, 10, 100);
        let good = task(1, 40, 40, 20, b"good");
        let odd = [
            ("lawful task", good.clone()),
            ("task with all faults", task(0, 9, 10, u64::MAX, b" ")),
            ("task with bad units", task(501, 900, 900, 0, b"a")),
            ("task with high draw", task(1, 9, 9, 91, b"a")),
            ("task with bad name", task(1, 9, 9, 0, b"a b")),
            ("task without a name", task(1, 9, 9, 0, b"")),
            ("task with 13 name bytes", task(1, 9, 9, 0, &[b'a'; 13])),
            ("lawful node", head.clone()),
            ("node with all faults", node(0, 9, 8)),
            ("long node", record(NODE_KIND, &[1; 21])),
            ("unknown kind", record(3, &[0; 20])),
            ("length below 4", vec![3, 0, 9, 0]),
            ("length past the end", vec![24, 0, 1, 0]),
            ("three bytes", vec![24, 0, 1]),
        ];
        for (note, odd) in odd {
            self.add(format!("{note} first"), std::slice::from_ref(&odd));
            let swapped = [odd.clone(), head.clone()];
            self.add(format!("{note} before the node"), &swapped);
            for before in [0, 1, 14, 15, 16, 17] {
                let mut records = vec![head.clone()];
                records.extend(std::iter::repeat_n(good.clone(), before));
                records.push(odd.clone());
                let note = format!("{note} after {before} tasks");
                self.add(note.clone(), &records);
                records.push(good.clone());
                self.add(format!("{note} and before one"), &records);
            }
        }
        self.add("bad node, then cut", &[node(0, 0, 0), vec![9, 0, 2]]);
        let bad = task(0, 9, 9, 0, b"a");
        self.add("two bad nodes", &[node(0, 0, 0), node(0, 0, 0)]);
        self.add("two bad tasks", &[head, bad.clone(), bad]);
    }

    fn faults_together(&mut self) {
        for faults in 0..16 {
            let units = if faults & 1 == 0 { 1 } else { 0 };
            let draw = if faults & 2 == 0 { 90 } else { 91 };
            let name: &[u8] = if faults & 4 == 0 { b"ab" } else { b"a\x7f" };
            let deadline = if faults & 8 == 0 { 9 } else { 10 };
            let note = format!("faults {faults:04b}");
            self.add_task(&note, (units, 9, deadline, draw), name);
        }
        for faults in 0..8 {
            let rate = if faults & 1 == 0 { 1 } else { 0 };
            let floor = if faults & 2 == 0 { 5 } else { u64::MAX };
            let cap = if faults & 4 == 0 { 5 } else { MOST_CAP + 1 };
            self.add(
                format!("node faults {faults:03b}"),
                &[node(rate, floor, cap), task(0, 9, 9, 1, b" ")],
            );
        }
    }

    fn long_files(&mut self) {
        let head = node(10, 10, 100);
        // 24 + 40 * 25 = 1024
        let mut records = vec![head.clone()];
        records.extend(std::iter::repeat_n(task(1, 40, 40, 20, b"abc"), 40));
        self.add("1024 bytes of tasks", &records);
        records.push(task(1, 40, 40, 20, b"abc"));
        self.add("1049 bytes of tasks", &records);
        for size in [995, 996, 997, 998, 1000, 1976, 60_000] {
            for kind in [1, 2, 3] {
                let long = record(kind, &vec![b'a'; size]);
                let note = format!("{} bytes, long record of kind {kind}", 28 + size);
                self.add(note, &[head.clone(), long]);
            }
        }
        for size in [1020, 1021, 1100] {
            let long = record(3, &vec![b'a'; size]);
            self.add("a long record alone", std::slice::from_ref(&long));
        }
        let tail = vec![0; 5000];
        self.add("the example and 5000 zero bytes", &[example(), tail]);
        let tail = vec![b'a'; 70_000];
        self.add("the example and 70000 letters", &[example(), tail]);
        self.add("70000 bytes 0xff", &[vec![0xff; 70_000]]);
    }

    fn lawful(&mut self) {
        for deadline in [1, 4, 5, 6, 7, 8, 19, 20, 21, 22, 30] {
            let mut records = example_records();
            records[3] = task(1, 30, deadline, 25, b"tx");
            let note = format!("the example with deadline {deadline}");
            self.add(note, &records);
            records.remove(2);
            self.add("the same without its second task", &records);
        }
        let pair = [
            node(10, 0, 100),
            task(1, 10, 10, 0, b"one"),
            task(2, 10, 10, 15, b"two"),
        ];
        self.add("a pair with safe bound 4", &pair);
        // A full processor of 16, one unit each, and the same overfull.
        for period in [15, 16, 17] {
            let mut records = vec![node(10, 0, 100)];
            records.extend(std::iter::repeat_n(task(1, period, period, 10, b"x"), 16));
            self.add(format!("16 tasks of period {period}"), &records);
        }
        let top = MOST_CAP;
        for rate in [1, 999_999_999, MOST_RATE] {
            for draw in [0, u64::from(rate), u64::from(rate) + 1, top - 1, top] {
                let mut records = vec![node(rate, 0, top)];
                let longest = task(500, MOST_PERIOD, MOST_PERIOD, draw, b"abcdefghijkl");
                records.extend(std::iter::repeat_n(longest, 16));
                self.add(format!("16 of rate {rate} draw {draw}"), &records);
            }
        }
        for deadline in [99_999, 100_000] {
            // 499 of every 500 slots are taken: 200 units need 100,000 slots.
            let records = [
                node(1, 0, 8),
                task(499, 500, 500, 0, b"most"),
                task(200, MOST_PERIOD, deadline, 1, b"last"),
            ];
            self.add(format!("bound 100000 with deadline {deadline}"), &records);
        }
        self.add("worst", &[worst()]);
        self.add("heavy", &[heavy()]);
    }
}

#[cfg(test)]
mod tests {
    use super::*;
    use crate::listing::{Outcome, list};

    #[test]
    fn example_bytes() {
        let hex = "180001000a00000000000000000000006400000000000000\
                   190002000100080000000800000028000000000000006163\
                   711900020003000c0000000c00000000000000000000006c\
                   6f671800020001001e000000150000001900000000000000\
                   7478";
        let got: String = example().iter().map(|b| format!("{b:02x}")).collect();
        assert_eq!(got, hex);
    }

    #[test]
    fn edges_meet_every_outcome() {
        let outcomes: Vec<Outcome> = edges()
            .iter()
            .map(|(_, file)| list(&file[..file.len().min(1024)]).outcome)
            .collect();
        assert!(outcomes.contains(&Outcome::Accepted));
        assert!(outcomes.contains(&Outcome::NotAccepted));
        for number in 1..=8 {
            assert!(outcomes.contains(&Outcome::Refused(number)), "{number}");
        }
    }
}
