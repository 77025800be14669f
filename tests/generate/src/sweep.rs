//! The sweep: plan files around document 01's example and at the limits of
//! the format, always the same.

use crate::files::{self, Records, INTERVAL};
use crate::plans::Plan;
use crate::questions;
use crate::workloads::Workload;

/// The sizes of the reader's six lent places: for the example and what is
/// near it, and for the longest file.
const FEW: [u16; 6] = [4, 32, 4, 4, 4, 4];
const MOST: [u16; 6] = [64, 512, 256, 256, 256, 256];

const MOST_CORES: usize = 8;
const MOST_INTERVALS: usize = 64;
const MOST_WORKLOADS: usize = 256;

/// A file and the sizes of the places that it is read into.
pub struct Swept {
    rooms: [u16; 6],
    bytes: Vec<u8>,
}

impl Swept {
    /// The question "read a plan file".
    pub fn question(&self) -> Vec<u8> {
        questions::read_record(self.rooms, &self.bytes)
    }

    /// The answer of a writer that writes this file into a place of its size.
    pub fn written(&self) -> String {
        let mut line = format!("write 0 {} :", self.bytes.len());
        for byte in &self.bytes {
            line += &format!(" {byte}");
        }
        line
    }
}

/// All files of the sweep.
pub fn all() -> Vec<Swept> {
    let mut all = Vec::new();
    let mut add = |rooms: [u16; 6], files: Vec<Vec<u8>>| {
        all.extend(files.into_iter().map(|bytes| Swept { rooms, bytes }));
    };
    let example = files::example();
    for rooms in [FEW, [0; 6]] {
        add(rooms, prefixes(&example.concat()));
        add(rooms, moved_records(&example));
    }
    add(FEW, set_bytes(&example.concat()));
    add(FEW, masks());
    add(MOST, interval_counts());
    add(MOST, workload_counts());
    add(MOST, running_totals());
    for (records, fitting) in [(example, [2, 8, 2, 2, 2, 2]), (longest(), MOST)] {
        for rooms in rooms_about(fitting) {
            add(rooms, vec![records.concat()]);
        }
    }
    all
}

/// Every prefix, from none of the bytes to all.
fn prefixes(bytes: &[u8]) -> Vec<Vec<u8>> {
    let lengths = 0..=bytes.len();
    lengths.map(|length| bytes[..length].to_vec()).collect()
}

/// Each byte set to each of the 256 values.
fn set_bytes(bytes: &[u8]) -> Vec<Vec<u8>> {
    let mut set = Vec::new();
    for at in 0..bytes.len() {
        for value in 0..=u8::MAX {
            let mut bytes = bytes.to_vec();
            bytes[at] = value;
            set.push(bytes);
        }
    }
    set
}

/// Each record doubled, dropped, and swapped with the next.
fn moved_records(records: &Records) -> Vec<Vec<u8>> {
    let mut moved = Vec::new();
    for at in 0..records.len() {
        let mut doubled = records.clone();
        doubled.insert(at, records[at].clone());
        moved.push(doubled.concat());
        let mut dropped = records.clone();
        dropped.remove(at);
        moved.push(dropped.concat());
        if at + 1 < records.len() {
            let mut swapped = records.clone();
            swapped.swap(at, at + 1);
            moved.push(swapped.concat());
        }
    }
    moved
}

/// Every mask for every number of cores, with as many budgets as it has ones,
/// one fewer and one more.
fn masks() -> Vec<Vec<u8>> {
    let mut files = Vec::new();
    for cores in 1..=MOST_CORES as u8 {
        for mask in 0..=u8::MAX {
            let ones = mask.count_ones() as usize;
            for listed in ones.saturating_sub(1)..=ones + 1 {
                files.push(masked(cores, mask, listed));
            }
        }
    }
    files
}

/// A file of one interval with this mask and so many budgets, which sum to Q.
fn masked(cores: u8, mask: u8, listed: usize) -> Vec<u8> {
    const SLOTS: u16 = 16;
    let plan = Plan {
        cores,
        slots_per_period: u32::from(SLOTS),
        mark: 0,
        lengths: vec![3],
        budgets: Vec::new(),
    };
    let mut body = vec![mask, 0, 3, 0];
    for number in 1..=listed as u16 {
        let last = SLOTS - (number - 1);
        let budget = if usize::from(number) < listed {
            1
        } else {
            last
        };
        body.extend(budget.to_le_bytes());
    }
    let head = files::head_record(&plan);
    [head, files::record(INTERVAL, &body)].concat()
}

/// Heads that state so many intervals, with as many of them, one fewer and
/// one more.
fn interval_counts() -> Vec<Vec<u8>> {
    let mut files = Vec::new();
    for stated in [0, 1, 63, MOST_INTERVALS, 65, 66, 255, 256, 257] {
        for given in stated.max(1) - 1..=stated + 1 {
            let mut records = sized(&vec![1; given], 2);
            records[0][8..10].copy_from_slice(&(stated as u16).to_le_bytes());
            files.push(records.concat());
        }
    }
    files
}

/// Files with up to 258 workloads, and 256 of them before a record that is
/// cut short, of another kind or of a wrong length.
fn workload_counts() -> Vec<Vec<u8>> {
    let mut files = Vec::new();
    for workloads in [0, 1, 255, MOST_WORKLOADS, 257, 258] {
        files.push(sized(&[2, 3], workloads).concat());
    }
    let full = sized(&[2, 3], MOST_WORKLOADS).concat();
    let one_more = files::workload_record(&some_workload(MOST_WORKLOADS));
    for end in prefixes(&one_more) {
        files.push([full.clone(), end].concat());
    }
    for at in 0..4 {
        for value in 0..=u8::MAX {
            let mut record = one_more.clone();
            record[at] = value;
            files.push([full.clone(), record].concat());
        }
    }
    files
}

/// Intervals whose running total is 65,535 or passes it by one or more, in
/// few intervals and in 64, and intervals of no period.
fn running_totals() -> Vec<Vec<u8>> {
    let mut all_lengths: Vec<Vec<u16>> = vec![
        vec![65_535],
        vec![65_534, 1],
        vec![65_535, 1],
        vec![1, 65_534],
        vec![1, 65_535],
        vec![32_768, 32_767],
        vec![32_768, 32_768],
        vec![65_535, 65_535],
        vec![65_535, 1, 65_535],
        vec![65_534, 1, 1],
        vec![0],
        vec![0, 65_535],
        vec![65_535, 0],
        vec![1, 0, 1],
    ];
    for last in [1_022, 1_023, 1_024, 1_025] {
        let mut lengths = vec![1_024; MOST_INTERVALS];
        lengths[MOST_INTERVALS - 1] = last;
        all_lengths.push(lengths);
    }
    let file = |lengths: &Vec<u16>| sized(lengths, 1).concat();
    all_lengths.iter().map(file).collect()
}

/// The longest file that is accepted, 5,642 bytes.
fn longest() -> Records {
    sized(&[1_000; MOST_INTERVALS], MOST_WORKLOADS)
}

/// Places that fit, and with one of the six a number too short, or a number
/// longer than needed.
fn rooms_about(fitting: [u16; 6]) -> Vec<[u16; 6]> {
    let mut about = vec![fitting];
    for place in 0..fitting.len() {
        for room in [0, fitting[place] - 1, fitting[place] + 1] {
            let mut rooms = fitting;
            rooms[place] = room;
            about.push(rooms);
        }
    }
    about
}

/// Intervals of these lengths in which all eight cores have a budget, and so
/// many workloads.
fn sized(lengths: &[u16], workloads: usize) -> Records {
    let column: Vec<u16> = (1..=MOST_CORES as u16).collect();
    let plan = Plan {
        cores: MOST_CORES as u8,
        slots_per_period: column.iter().copied().map(u32::from).sum(),
        mark: 0,
        lengths: lengths.to_vec(),
        budgets: column.repeat(lengths.len()),
    };
    let listed: Vec<Workload> = (0..workloads).map(some_workload).collect();
    files::records(&plan, &listed)
}

/// A workload for each number, all different.
fn some_workload(number: usize) -> Workload {
    let number = number as u32;
    Workload {
        core: (number % 256) as u8,
        computing: 0x0403_0201_u32.wrapping_mul(number + 1),
        requests: 0x0102_0305_u32.wrapping_mul(number + 1),
        horizon: (number * 251) as u16,
    }
}
