//! The three curves of a task and the search for their bounds.

use crate::table::Table;

/// The least window up to the deadline that the curve does not exceed,
/// absent if there is none, and the curve evaluations that it took.
#[derive(Debug, Clone, Copy, PartialEq, Eq)]
pub struct Bound {
    pub window: Option<u32>,
    pub rounds: u32,
}

#[derive(Debug, Clone, Copy, PartialEq, Eq)]
pub struct Bounds {
    pub time: Bound,
    pub greater: Bound,
    pub safe: Bound,
}

/// What one job of a task adds to each curve.
//
// Room in u64: a window holds at most 100,000 jobs of a task, a job at most
// 500 units, a unit at most 8e9 (cap and rate both lie below). That is 4e17
// for each of 15 more urgent tasks and 4e12 for the task itself: together
// below 6.1e18, while u64 ends above 1.8e19.
struct Load {
    period: u32,
    units: u64,
    energy: u64,
    safe: u64,
}

/// The bounds of every task, in the table's order.
pub fn bounds(table: &Table) -> Vec<Bounds> {
    let rate = u64::from(table.rate);
    let loads: Vec<Load> = table
        .tasks
        .iter()
        .map(|task| {
            let units = u64::from(task.units);
            Load {
                period: task.period,
                units,
                energy: units * task.draw,
                safe: units * task.draw.max(rate),
            }
        })
        .collect();
    table
        .tasks
        .iter()
        .enumerate()
        .map(|(i, task)| {
            let (urgent, own) = (&loads[..i], &loads[i]);
            Bounds {
                time: search(task.deadline, |window| time(urgent, own, window)),
                greater: search(task.deadline, |window| greater(urgent, own, rate, window)),
                safe: search(task.deadline, |window| safe(urgent, own, rate, window)),
            }
        })
        .collect()
}

fn time(urgent: &[Load], own: &Load, window: u32) -> u64 {
    let mut units = own.units;
    for load in urgent {
        units += u64::from(window.div_ceil(load.period)) * load.units;
    }
    units
}

fn greater(urgent: &[Load], own: &Load, rate: u64, window: u32) -> u64 {
    let mut units = own.units;
    let mut energy = own.energy;
    for load in urgent {
        let jobs = u64::from(window.div_ceil(load.period));
        units += jobs * load.units;
        energy += jobs * load.energy;
    }
    units.max(energy.div_ceil(rate))
}

fn safe(urgent: &[Load], own: &Load, rate: u64, window: u32) -> u64 {
    let mut energy = own.safe;
    for load in urgent {
        energy += u64::from(window.div_ceil(load.period)) * load.safe;
    }
    energy.div_ceil(rate)
}

/// From window 1, the curve's value becomes the next window until it no
/// longer exceeds the window, or passes the deadline.
fn search(deadline: u32, curve: impl Fn(u32) -> u64) -> Bound {
    let mut window = 1;
    let mut rounds = 0;
    loop {
        let value = curve(window);
        rounds += 1;
        if value <= u64::from(window) {
            return Bound {
                window: Some(window),
                rounds,
            };
        }
        if value > u64::from(deadline) {
            return Bound {
                window: None,
                rounds,
            };
        }
        // At most the deadline, so it fits.
        window = value as u32;
    }
}

#[cfg(test)]
mod tests {
    use super::*;
    use crate::files::{heavy, worst};
    use crate::random::{Random, lawful};
    use crate::table::{load, of_numbers};

    fn found(bound: Bound) -> (Option<u32>, u32) {
        (bound.window, bound.rounds)
    }

    fn table(rate: u32, cap: u64, tasks: &[(u32, u32, u32, u64)]) -> Table<'static> {
        of_numbers(rate, 0, cap, tasks)
    }

    #[test]
    fn two_tasks_by_hand() {
        for (deadline, want) in [(30, (Some(7), 2)), (7, (Some(7), 2)), (6, (None, 1))] {
            let table = table(10, 100, &[(1, 8, 8, 40), (1, 30, deadline, 25)]);
            assert_eq!(found(bounds(&table)[1].safe), want);
        }
        let table = table(10, 100, &[(1, 10, 10, 0), (2, 10, 10, 15)]);
        let last = bounds(&table)[1];
        assert_eq!(found(last.time), (Some(3), 2));
        assert_eq!(found(last.greater), (Some(3), 2));
        assert_eq!(found(last.safe), (Some(4), 2));
    }

    #[test]
    fn window_one_needs_one_round() {
        let table = table(5, 5, &[(1, 1, 1, 5)]);
        let only = bounds(&table)[0];
        for bound in [only.time, only.greater, only.safe] {
            assert_eq!(found(bound), (Some(1), 1));
        }
    }

    #[test]
    fn worst_takes_every_round() {
        let file = worst();
        let table = load(&file).unwrap();
        let all = bounds(&table);
        let last = all.last().unwrap();
        for bound in [last.time, last.greater, last.safe] {
            assert_eq!(found(bound), (None, 100_000));
        }
    }

    #[test]
    fn heavy_is_full_and_long() {
        let file = heavy();
        let table = load(&file).unwrap();
        let all = bounds(&table);
        assert_eq!(all.len(), 16);
        assert_eq!(found(all[1].safe), (None, 100_000));
        assert_eq!(found(all[15].safe), (None, 6_667));
        let rounds: u32 = all.iter().map(|bounds| bounds.safe.rounds).sum();
        assert!(rounds > 300_000, "{rounds}");
    }

    /// The curves once more, plainly and in 128 bits: time, greater, safe.
    fn plain(table: &Table, i: usize, window: u32) -> [u128; 3] {
        let rate = u128::from(table.rate);
        let (mut units, mut energy, mut safe) = (0, 0, 0);
        for (j, task) in table.tasks[..=i].iter().enumerate() {
            let mut jobs = 1;
            if j < i {
                jobs = u128::from(window / task.period);
                if !window.is_multiple_of(task.period) {
                    jobs += 1;
                }
            }
            let (c, p) = (u128::from(task.units), u128::from(task.draw));
            units += jobs * c;
            energy += jobs * c * p;
            safe += jobs * c * p.max(rate);
        }
        let up = |sum: u128| sum / rate + u128::from(!sum.is_multiple_of(rate));
        [units, units.max(up(energy)), up(safe)]
    }

    #[test]
    fn bounds_are_the_least_windows() {
        let mut random = Random::new(7);
        for _ in 0..60 {
            let file = lawful(&mut random).concat();
            let table = load(&file).unwrap();
            for (i, got) in bounds(&table).iter().enumerate() {
                let mut want = [None; 3];
                for window in 1..=table.tasks[i].deadline.min(3_000) {
                    let curves = plain(&table, i, window);
                    for (want, curve) in want.iter_mut().zip(curves) {
                        if want.is_none() && curve <= u128::from(window) {
                            *want = Some(window);
                        }
                    }
                }
                let got = [got.time, got.greater, got.safe];
                for (got, want) in got.iter().zip(want) {
                    if want.is_some() || got.window.is_none_or(|window| window <= 3_000) {
                        assert_eq!(got.window, want);
                    }
                }
            }
        }
    }

    #[test]
    fn greatest_sums_fit() {
        let mut tasks = vec![(500, 500, 500, 8_000_000_000); 15];
        tasks.push((500, 100_000, 100_000, 8_000_000_000));
        for rate in [1, 999_999_999, 1_000_000_000] {
            let table = table(rate, 8_000_000_000, &tasks);
            let load = |&(units, period, _, draw): &(u32, u32, u32, u64)| Load {
                period,
                units: u64::from(units),
                energy: u64::from(units) * draw,
                safe: u64::from(units) * draw.max(u64::from(rate)),
            };
            let loads: Vec<Load> = tasks.iter().map(load).collect();
            let (urgent, own) = (&loads[..15], &loads[15]);
            for window in [1, 500, 501, 99_999, 100_000] {
                let got = [
                    time(urgent, own, window),
                    greater(urgent, own, u64::from(rate), window),
                    safe(urgent, own, u64::from(rate), window),
                ];
                assert_eq!(got.map(u128::from), plain(&table, 15, window));
            }
        }
    }
}
