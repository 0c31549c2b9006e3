//! Fixed histories for noderun: wrong arguments, lines that are no orders,
//! harvesters, levels and orders at their borders.

use crate::files::{example, node, task};
use crate::histories::History;
use crate::node::Order;
use crate::noderun::{MOST_LINE, MOST_LINES, MOST_SAMPLES};

/// Arguments that are wrong, with `TABLE` for the path of the table file and
/// `EMPTY` for an empty word. In the last two there is no such file.
pub fn wrong_arguments() -> Vec<String> {
    let many = ["10"; MOST_SAMPLES + 1].join(",");
    let more = ["10"; 1_000].join(",");
    let mut all: Vec<String> = [
        "",
        "--quiet",
        "TABLE",
        "TABLE 0",
        "--quiet TABLE 0",
        "0 TABLE steady 10",
        "TABLE steady 10",
        "TABLE 0 steady",
        "TABLE 0 trace",
        "TABLE 0 10",
        "TABLE 0 solar 10",
        "TABLE 0 Steady 10",
        "TABLE 0 stead 10",
        "TABLE 0 none",
        "TABLE x steady 10",
        "TABLE -1 steady 10",
        "TABLE +1 steady 10",
        "TABLE 1.0 steady 10",
        "TABLE 18446744073709551616 steady 10",
        "TABLE 18446744073709551617 steady 10",
        "TABLE 0 steady x",
        "TABLE 0 steady 1x",
        "TABLE 0 steady -10",
        "TABLE 0 steady +10",
        "TABLE 0 steady none",
        "TABLE 0 steady 4294967296",
        "TABLE 0 steady 4294967306",
        "TABLE 0 steady 18446744073709551626",
        "TABLE 0 steady 10 10",
        "TABLE 0 steady 10 --quiet",
        "TABLE 0 steady 10,11",
        "TABLE 0 trace ,",
        "TABLE 0 trace 10,",
        "TABLE 0 trace ,10",
        "TABLE 0 trace 10,,10",
        "TABLE 0 trace 10;10",
        "TABLE 0 trace 10,4294967296",
        "TABLE 0 trace 10,x",
        "TABLE 0 trace none,10",
        "TABLE 0 trace 10,none",
        "TABLE 0 trace 10 10",
        "TABLE 0 trace nothing",
        "TABLE 0 converter",
        "TABLE 0 converter 256",
        "TABLE 0 converter 256 steady",
        "TABLE 0 converter 256 trace",
        "TABLE 0 converter 65536 steady 10",
        "TABLE 0 converter 65792 steady 10",
        "TABLE 0 converter -1 steady 10",
        "TABLE 0 converter steady 10",
        "TABLE 0 converter 256 steady 10 10",
        "TABLE 0 converter 256 pair steady 10 trace 10",
        "TABLE 0 converter 256 converter 256 steady 10",
        "TABLE 0 pair",
        "TABLE 0 pair steady 10",
        "TABLE 0 pair steady 10 trace",
        "TABLE 0 pair steady 10 trace 10 10",
        "TABLE 0 pair steady 10 steady 10",
        "TABLE 0 pair trace 10 steady 10",
        "TABLE 0 pair trace 10 trace 10",
        "TABLE 0 pair steady x trace 10",
        "TABLE 0 pair steady 10 trace x",
        "--quiet --quiet TABLE 0 steady 10",
        "TABLE EMPTY steady 10",
        "TABLE 0 EMPTY",
        "TABLE 0 steady EMPTY",
        "TABLE 0 trace EMPTY",
        "TABLE 0 converter EMPTY steady 10",
        "TABLE 0 steady 10 EMPTY",
    ]
    .map(String::from)
    .to_vec();
    all.push(format!("TABLE 0 trace {many}"));
    all.push(format!("TABLE 0 trace {more}"));
    all.push(format!("TABLE 0 pair steady 10 trace {many}"));
    all.push("TABLE/none 0 steady 10".to_string());
    all.push("--quiet TABLE/none 0 steady 10".to_string());
    all
}

/// A history with these arguments, over an order that would be good.
pub fn with_arguments(file: Vec<u8>, words: &str) -> History {
    let word = |word: &str| word.replace("EMPTY", "");
    History {
        file,
        arguments: words.split_whitespace().map(word).collect(),
        form: None,
        orders: b"slots 3\n".to_vec(),
    }
}

/// A node that one order of slots brings close to the clock's end and another
/// one to it; too long to stand among the edges, which tests go through too.
pub fn clock_end() -> History {
    let mut history = with_arguments(example(), "--quiet TABLE 0 steady 10");
    history.orders = b"slots 3999999990\nrelease 1 1 40\nrelease 2 3 0\nslots 11\nslots 10\n\
        slots 0\nslots 1\nrelease 1 1 40\n"
        .to_vec();
    history
}

/// Lines that are no orders, mostly only just.
pub fn no_orders() -> Vec<Vec<u8>> {
    let lines: [&[u8]; _] = [
        b"no order",
        b" ",
        b"\t",
        b"\r",
        b"\0",
        b"-",
        b"7",
        b"\xff\xfe",
        b"slots",
        b"slots ",
        b" slots 1",
        b"slots 1 ",
        b"slots  1",
        b"slots 1 1",
        b"slots x",
        b"slots 1x",
        b"slots -1",
        b"slots +1",
        b"slots 1.",
        b"slots 1,000",
        b"slots 0x1",
        b"slots\t1",
        b"slots 1\r",
        b"slots 1\0",
        b"slots \xb2",
        b"slots \xc2\xb2",
        b"slots1",
        b"slot 1",
        b"Slots 1",
        b"SLOTS 1",
        b"slots 4294967296",
        b"slots 4294967297",
        b"slots 18446744073709551616",
        b"slots 18446744073709551617",
        b"slots 99999999999999999999999999",
        b"release",
        b"release 1",
        b"release 1 1",
        b"release 1 1 ",
        b"release 1  0",
        b"release  1 1 0",
        b"release 1 1  0",
        b"release 1 1 0 ",
        b"release 1 1 0 0",
        b"release 1,1,0",
        b"release one 1 0",
        b"release 256 1 0",
        b"release 257 1 0",
        b"release 4294967297 1 0",
        b"release 1 65536 0",
        b"release 1 65537 0",
        b"release 1 1 18446744073709551616",
        b"release 1 1 18446744073709551617",
        b"release 1 1 100000000000000000000",
        b"release -1 1 0",
        b"release 1 -1 0",
        b"release 1 1 -1",
        b"release +1 1 0",
        b"released 1 1 0",
        b"Release 1 1 0",
        b"release 1 1 0 slots 1",
        b"order 1 slots 1 done",
        b"#",
    ];
    let mut all = lines.map(<[u8]>::to_vec).to_vec();
    all.push(vec![b'a'; MOST_LINE]);
    all.push(vec![b' '; MOST_LINE]);
    all.push(vec![b'a'; MOST_LINE + 1]);
    for size in [MOST_LINE + 1, MOST_LINE + 2, 2 * MOST_LINE] {
        all.push(padded(&Order::Slots(1), size).into_bytes());
    }
    // Long lines whose parts look like orders.
    let front = " ".repeat(MOST_LINE);
    all.push(format!("{front}slots 1").into_bytes());
    all.push(format!("{front} slots 1").into_bytes());
    all
}

/// The order with zeros before its last number, up to this many bytes.
pub fn padded(order: &Order, size: usize) -> String {
    let text = order.to_string();
    let (front, number) = text.rsplit_once(' ').expect("an order with a number");
    let zeros = "0".repeat(size.saturating_sub(text.len()));
    format!("{front} {zeros}{number}")
}

/// The orders of the worked example, and slots enough for a long trace.
const WORKED: &str = "release 1 1 40\nrelease 2 3 0\nslots 7\nrelease 1 1 40\nslots 1\n\
    release 1 1 40\nrelease 3 1 25\nslots 130\n";

pub fn edges() -> Vec<History> {
    let mut edges = Vec::new();
    let mut add = |file: &[u8], words: &str, orders: &[u8]| {
        let mut history = with_arguments(file.to_vec(), words);
        history.orders = orders.to_vec();
        edges.push(history);
    };

    for words in ["TABLE 0 steady 10", "--quiet TABLE 0 steady 10"] {
        add(&example(), words, WORKED.as_bytes());
    }
    for words in HARVESTERS {
        add(&example(), &format!("TABLE 0 {words}"), WORKED.as_bytes());
    }
    let most = ["11"; MOST_SAMPLES - 1].join(",");
    for list in [
        format!("{most},10"),
        format!("10,{most}"),
        format!("{most},9"),
    ] {
        add(
            &example(),
            &format!("TABLE 0 trace {list}"),
            WORKED.as_bytes(),
        );
    }

    // The example above a floor, and levels around its ends.
    let raised = [
        node(10, 50, 150),
        task(1, 8, 8, 40, b"acq"),
        task(3, 12, 12, 0, b"log"),
        task(1, 30, 20, 25, b"tx"),
    ]
    .concat();
    for level in [0, 49, 50, 51, 79, 80, 81, 149, 150, 151, u64::MAX] {
        for words in ["steady 10", "steady 9", "trace none"] {
            let words = format!("TABLE {level} {words}");
            add(&raised, &words, WORKED.as_bytes());
        }
    }

    for order in ORDERS {
        for before in [
            "",
            "release 2 3 0\n",
            "release 2 3 0\nslots 11\n",
            "slots 1\n",
        ] {
            let orders = format!("{before}{order}\nslots 5\n{order}\nslots 3\n{order}");
            add(&example(), "TABLE 0 steady 10", orders.as_bytes());
        }
    }
    // Counts that pass the end only after the slots before them.
    let orders = b"slots 2000\nslots 3999998001\nslots 3999999999\nslots 1\nslots 4000000000";
    add(&example(), "--quiet TABLE 0 steady 10", orders);

    for orders in [
        "",
        "\n",
        "\n\n\n",
        "slots 1",
        "slots 1\n",
        "\nslots 1\n\n",
        "slots 0",
    ] {
        add(&example(), "TABLE 100 steady 10", orders.as_bytes());
    }
    for words in ["TABLE 0 steady 10", "--quiet TABLE 0 steady 10"] {
        let orders = "slots 1\n".repeat(MOST_LINES);
        add(&example(), words, orders.as_bytes());
        add(&example(), words, "\n".repeat(MOST_LINES).as_bytes());
        let line = padded(&Order::Slots(1), MOST_LINE);
        let orders = [&line[..]; MOST_LINES].join("\n");
        add(&example(), words, orders.as_bytes());
        add(&node(10, 0, 100), words, b"release 1 1 0\nslots 12\n");
        add(b"", words, b"slots 1\n");
        add(&example()[..97], words, b"slots 1\n");
        // Only the front of a long file counts.
        let long = [example(), vec![0; 2_000]].concat();
        add(&long, words, b"slots 1\n");
    }
    // 24 + 1,000 bytes make a record that reaches to the very end.
    let tasks = task(1, 40, 40, 20, b"abc").repeat(40);
    for end in [1_023, 1_024, 1_025] {
        let mut file = [node(10, 0, 100), tasks.clone()].concat();
        file.resize(end, b'a');
        add(&file, "TABLE 0 steady 10", b"slots 1\n");
    }

    let longest = padded(&Order::Slots(1), 70_000).into_bytes();
    for line in no_orders().into_iter().chain([longest]) {
        let orders = [b"slots 1\n\n", &line[..], b"\nslots 2\n", &line[..]].concat();
        add(&example(), "TABLE 0 steady 10", &orders);
    }
    for words in wrong_arguments() {
        add(&example(), &words, b"slots 3\n");
    }
    edges
}

/// Harvesters over the example, whose rate is 10.
const HARVESTERS: [&str; 44] = [
    "steady 0",
    "steady 9",
    "steady 10",
    "steady 11",
    "steady 010",
    "steady 1000000000",
    "steady 1000000001",
    "steady 4294967295",
    "trace none",
    "trace 10",
    "trace 9",
    "trace 10,9",
    "trace 9,10",
    "trace 10,11,30",
    "trace 30,10,11",
    "trace 11,30,10",
    "trace 4294967295,10",
    "trace 4294967295",
    "trace 10,1000000001",
    "converter 0 steady 4294967295",
    "converter 1 steady 2559",
    "converter 1 steady 2560",
    "converter 1 steady 4294967295",
    "converter 128 steady 15",
    "converter 128 steady 19",
    "converter 128 steady 20",
    "converter 128 steady 21",
    "converter 255 steady 10",
    "converter 255 steady 11",
    "converter 256 steady 10",
    "converter 257 steady 10",
    "converter 65535 steady 9",
    "converter 65535 steady 4294967295",
    "converter 128 trace 20,21,22,23",
    "converter 128 trace 23,19",
    "converter 300 trace 10,17",
    "converter 256 trace none",
    "pair steady 0 trace 10",
    "pair steady 10 trace none",
    "pair steady 5 trace 5,6",
    "pair steady 5 trace 6,4",
    "pair steady 1000000000 trace 0,1",
    "pair steady 999999995 trace 3,5,7",
    "pair steady 4294967295 trace 4294967295",
];

/// Orders over the example, right and wrong.
const ORDERS: [&str; 27] = [
    "release 0 1 0",
    "release 1 1 40",
    "release 1 1 0",
    "release 1 1 41",
    "release 1 0 40",
    "release 1 2 40",
    "release 1 65535 18446744073709551615",
    "release 2 3 0",
    "release 2 1 0",
    "release 2 4 0",
    "release 2 3 1",
    "release 3 1 25",
    "release 3 1 26",
    "release 4 1 0",
    "release 4 0 99",
    "release 17 1 0",
    "release 255 0 18446744073709551615",
    "release 001 01 0040",
    "slots 0",
    "slots 00",
    "slots 1",
    "slots 0012",
    "slots 40",
    "slots 4000000001",
    "slots 4294967295",
    "slots 4000000002",
    "slots 4100000000",
];

#[cfg(test)]
mod tests {
    use super::*;
    use crate::noderun::parse;

    #[test]
    fn wrong_arguments_are_wrong() {
        let all = wrong_arguments();
        for (i, words) in all.iter().enumerate() {
            let history = with_arguments(Vec::new(), words);
            let arguments: Vec<_> = history.arguments.iter().map(|word| word.into()).collect();
            assert_eq!(parse(&arguments).is_err(), i + 2 < all.len(), "{words}");
        }
    }

    #[test]
    fn padded_lines() {
        let release = Order::Release {
            task: 1,
            units: 2,
            draw: 30,
        };
        assert_eq!(padded(&release, 0), "release 1 2 30");
        assert_eq!(padded(&release, 15), "release 1 2 030");
        assert_eq!(padded(&Order::Slots(7), MOST_LINE).len(), MOST_LINE);
    }
}
