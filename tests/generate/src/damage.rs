//! Damage done to plan files, record by record and byte by byte.

use crate::files::{record, Records, HEAD, INTERVAL, MOST_BYTES, WORKLOAD};
use crate::plans::MOST_PERIODS;
use crate::random::Random;

/// One kind of damage to the records; the number of cores is given.
type ToRecords = fn(&mut Random, &mut Records, u8);
/// One kind of damage to the bytes.
type ToBytes = fn(&mut Random, &mut Vec<u8>);

const TO_RECORDS: [ToRecords; 23] = [
    double,
    leave_out,
    swap,
    change_kind,
    change_length,
    resize_body,
    set_zero_byte,
    change_mask,
    list_core_above,
    list_zero_budget,
    change_budget,
    wrap_sum,
    change_periods,
    reach_most_periods,
    change_head,
    change_head,
    change_head,
    change_interval_count,
    fill_intervals,
    fill_workloads,
    several_in_one,
    several_in_one,
    several_in_one,
];

const TO_BYTES: [ToBytes; 6] = [
    change_bytes,
    flip_bit,
    cut,
    add_trailing,
    add_long_tail,
    only_random,
];

/// The bytes of the file after one to three kinds of damage.
pub fn damaged(random: &mut Random, records: &mut Records, cores: u8) -> Vec<u8> {
    for _ in 0..random.pick(&[0, 1, 1, 1, 1, 2, 3]) {
        if !records.is_empty() {
            random.pick(&TO_RECORDS)(random, records, cores);
        }
    }
    let mut bytes = records.concat();
    if random.one_in(3) {
        random.pick(&TO_BYTES)(random, &mut bytes);
    } else if random.one_in(12) {
        cut_at_border(random, records, &mut bytes);
    }
    bytes.truncate(MOST_BYTES);
    bytes
}

fn place(random: &mut Random, records: &Records) -> usize {
    random.below(records.len() as u64) as usize
}

/// The kind of a record, 0 if it is cut short.
fn kind(record: &[u8]) -> u16 {
    match record {
        [_, _, low, high, ..] => u16::from_le_bytes([*low, *high]),
        _ => 0,
    }
}

/// One of the whole records of a kind, if there is any.
fn one_of_kind<'a>(
    random: &mut Random,
    records: &'a mut Records,
    wanted: u16,
) -> Option<&'a mut Vec<u8>> {
    let least = if wanted == INTERVAL { 8 } else { 10 };
    let lawful = |record: &&mut Vec<u8>| record.len() >= least && kind(record) == wanted;
    let mut found: Vec<&mut Vec<u8>> = records.iter_mut().filter(lawful).collect();
    if found.is_empty() {
        return None;
    }
    let chosen = random.below(found.len() as u64) as usize;
    Some(found.swap_remove(chosen))
}

fn double(random: &mut Random, records: &mut Records, _: u8) {
    let (from, anywhere) = (place(random, records), place(random, records));
    let to = random.pick(&[from, anywhere]);
    let copy = records[from].clone();
    records.insert(to, copy);
}

fn leave_out(random: &mut Random, records: &mut Records, _: u8) {
    let at = place(random, records);
    records.remove(at);
}

fn swap(random: &mut Random, records: &mut Records, _: u8) {
    let (one, other) = (place(random, records), place(random, records));
    records.swap(one, other);
}

fn change_kind(random: &mut Random, records: &mut Records, _: u8) {
    let at = place(random, records);
    set_kind(random, &mut records[at]);
}

fn set_kind(random: &mut Random, record: &mut [u8]) {
    let kind: u16 = random.pick(&[0, 1, 2, 3, 4, 16, 255, 257, 258, 259, 65_535]);
    if record.len() >= 4 {
        record[2..4].copy_from_slice(&kind.to_le_bytes());
    }
}

/// Another length in front of the same body.
fn change_length(random: &mut Random, records: &mut Records, _: u8) {
    let at = place(random, records);
    set_length(random, &mut records[at]);
}

fn set_length(random: &mut Random, record: &mut [u8]) {
    if record.len() < 2 {
        return;
    }
    let length = u16::from_le_bytes([record[0], record[1]]);
    let near = length.wrapping_add(random.pick(&[1, 2, 256, 65_534, 65_535]));
    let length: u16 = random.pick(&[0, 4, 6, 12, 20, 22, 65_535, near, near, near]);
    record[..2].copy_from_slice(&length.to_le_bytes());
}

/// A longer or shorter body with the length that it has.
fn resize_body(random: &mut Random, records: &mut Records, _: u8) {
    let at = place(random, records);
    set_body(random, &mut records[at]);
}

fn set_body(random: &mut Random, resized: &mut Vec<u8>) {
    if resized.len() >= 4 {
        let length = resized.len() as u64 - 4;
        let length = random.pick(&[length + 1, length + 2, length.max(2) - 2, 22, 3]);
        let mut body = resized[4..].to_vec();
        body.resize(length as usize, random.pick(&[0, 1]));
        *resized = record(kind(resized), &body);
    }
}

fn set_zero_byte(random: &mut Random, records: &mut Records, _: u8) {
    let at = place(random, records);
    set_byte(random, &mut records[at], 5);
}

fn set_byte(random: &mut Random, record: &mut [u8], at: usize) {
    if let Some(byte) = record.get_mut(at) {
        *byte = random.pick(&[0, 1, 2, 128, 255]);
    }
}

/// Several faults in one record, often the first or the last.
fn several_in_one(random: &mut Random, records: &mut Records, _: u8) {
    let anywhere = place(random, records);
    let at = random.pick(&[0, anywhere, anywhere, records.len() - 1]);
    put_faults(random, records, at);
}

/// Two to four faults in one record, so that their order counts; sometimes
/// the file ends inside it.
fn put_faults(random: &mut Random, records: &mut Records, at: usize) {
    for _ in 0..random.between(2, 4) {
        let record = &mut records[at];
        match random.below(8) {
            0 => set_kind(random, record),
            1 => set_length(random, record),
            2 => set_body(random, record),
            3 | 4 => set_byte(random, record, 5),
            5 => set_byte(random, record, 4),
            6 => {
                let later = random.between(6, 11) as usize;
                set_byte(random, record, later);
            }
            _ => {
                let kept = random.below(record.len() as u64 + 1) as usize;
                record.truncate(kept);
                records.truncate(at + 1);
                return;
            }
        }
    }
}

/// One core more or fewer in the mask than budgets are listed.
fn change_mask(random: &mut Random, records: &mut Records, _: u8) {
    if let Some(interval) = one_of_kind(random, records, INTERVAL) {
        interval[4] ^= 1 << random.below(8);
    }
}

/// A core above the last in the mask, with or without its budget.
fn list_core_above(random: &mut Random, records: &mut Records, cores: u8) {
    let Some(interval) = one_of_kind(random, records, INTERVAL) else {
        return;
    };
    if cores < 8 {
        let mut body = interval[4..].to_vec();
        body[0] |= 1 << random.between(u64::from(cores), 7);
        if random.one_in(2) {
            body.extend([random.pick(&[0, 1]), 0]);
        }
        *interval = record(INTERVAL, &body);
    }
}

/// A budget of 0 that is listed: one more, or the last of those listed, whose
/// slots go to the one before.
fn list_zero_budget(random: &mut Random, records: &mut Records, cores: u8) {
    let Some(interval) = one_of_kind(random, records, INTERVAL) else {
        return;
    };
    let mut body = interval[4..].to_vec();
    let last = body.len();
    let unlisted = (0..cores.min(8)).find(|core| body[0] >> core & 1 == 0);
    match unlisted {
        Some(core) if random.one_in(2) => {
            let before = (body[0] & ((1 << core) - 1)).count_ones() as usize;
            body[0] |= 1 << core;
            let at = (4 + 2 * before).min(last);
            body.splice(at..at, [0, 0]);
        }
        _ if last >= 8 => {
            let budget = |at: usize| u16::from_le_bytes([body[at], body[at + 1]]);
            let both = budget(last - 4).wrapping_add(budget(last - 2));
            body[last - 4..last - 2].copy_from_slice(&both.to_le_bytes());
            body[last - 2..].fill(0);
        }
        _ => body[last - 2..].fill(0),
    }
    *interval = record(INTERVAL, &body);
}

/// A budget one more or less.
fn change_budget(random: &mut Random, records: &mut Records, _: u8) {
    let Some(interval) = one_of_kind(random, records, INTERVAL) else {
        return;
    };
    if interval.len() >= 10 {
        let at = 8 + 2 * random.below((interval.len() as u64 - 8) / 2) as usize;
        let budget = u16::from_le_bytes([interval[at], interval[at + 1]]);
        let budget = budget.wrapping_add(random.pick(&[1, 65_535]));
        interval[at..at + 2].copy_from_slice(&budget.to_le_bytes());
    }
}

/// Three budgets that sum to 65,536 more than Q.
fn wrap_sum(random: &mut Random, records: &mut Records, cores: u8) {
    let head = records[0].clone();
    if cores < 3 || head.len() < 8 {
        return;
    }
    let slots = u32::from(u16::from_le_bytes([head[6], head[7]]));
    if let Some(interval) = one_of_kind(random, records, INTERVAL) {
        let beyond = slots + 65_536 - 65_535;
        let (first, second) = (beyond / 2, beyond - beyond / 2);
        let mut body = vec![7, 0, interval[6], interval[7]];
        for budget in [65_535, first, second] {
            body.extend((budget as u16).to_le_bytes());
        }
        *interval = record(INTERVAL, &body);
    }
}

fn change_periods(random: &mut Random, records: &mut Records, _: u8) {
    if let Some(interval) = one_of_kind(random, records, INTERVAL) {
        let periods: u16 = random.pick(&[0, 0, 65_535, 40_000]);
        interval[6..8].copy_from_slice(&periods.to_le_bytes());
    }
}

/// The running total at the most allowed, or one more.
fn reach_most_periods(random: &mut Random, records: &mut Records, _: u8) {
    let periods = |record: &Vec<u8>| match kind(record) {
        INTERVAL if record.len() >= 8 => u64::from(u16::from_le_bytes([record[6], record[7]])),
        _ => 0,
    };
    let total: u64 = records.iter().map(periods).sum();
    let wanted = MOST_PERIODS + random.below(2);
    if let Some(interval) = one_of_kind(random, records, INTERVAL) {
        let others = total - periods(interval);
        let length = wanted.saturating_sub(others).min(65_535) as u16;
        interval[6..8].copy_from_slice(&length.to_le_bytes());
    }
}

/// Cores, Q or the number of intervals outside their bounds, or just others.
fn change_head(random: &mut Random, records: &mut Records, cores: u8) {
    let Some(head) = one_of_kind(random, records, HEAD) else {
        return;
    };
    match random.below(4) {
        0 => head[4] = random.pick(&[0, 9, 255, cores % 8 + 1, cores.max(2) - 1]),
        1 => head[6..8].fill(0),
        2 => head[6] = head[6].wrapping_add(1),
        _ => {
            let intervals: u16 = random.pick(&[0, 65, 64, 320, 65_535]);
            head[8..10].copy_from_slice(&intervals.to_le_bytes());
        }
    }
}

/// One interval more or fewer than there are.
fn change_interval_count(random: &mut Random, records: &mut Records, _: u8) {
    if let Some(head) = one_of_kind(random, records, HEAD) {
        let intervals = u16::from_le_bytes([head[8], head[9]]);
        let intervals = intervals.wrapping_add(random.pick(&[1, 65_535]));
        head[8..10].copy_from_slice(&intervals.to_le_bytes());
    }
}

/// 64 or 65 intervals of one period, and a head that says so.
fn fill_intervals(random: &mut Random, records: &mut Records, _: u8) {
    let wanted: u16 = random.pick(&[64, 65]);
    let Some(interval) = one_of_kind(random, records, INTERVAL) else {
        return;
    };
    interval[6..8].copy_from_slice(&[1, 0]);
    let interval = interval.clone();
    let at = records.iter().position(|record| kind(record) == INTERVAL);
    records.retain(|record| kind(record) != INTERVAL);
    for _ in 0..wanted {
        records.insert(at.unwrap_or(0).min(records.len()), interval.clone());
    }
    if let Some(head) = one_of_kind(random, records, HEAD) {
        head[8..10].copy_from_slice(&wanted.to_le_bytes());
    }
}

/// 256 or 257 workloads, or so many that the file passes 8,192 bytes.
fn fill_workloads(random: &mut Random, records: &mut Records, _: u8) {
    let wanted = random.pick(&[256, 257, 258, 520]);
    let mut body = vec![1, 0, 9, 0, 0, 0, 3, 0, 0, 0, 1, 0];
    if let Some(workload) = one_of_kind(random, records, WORKLOAD) {
        body = workload[4..].to_vec();
        // Few requests and a near horizon, so that all these searches are short.
        body.resize(12, 0);
        body[6..10].copy_from_slice(&[3, 0, 0, 0]);
        body[11] = 0;
    }
    let listed = records
        .iter()
        .filter(|record| kind(record) == WORKLOAD)
        .count();
    for _ in listed..wanted {
        records.push(record(WORKLOAD, &body));
    }
    if random.one_in(2) {
        // The record after the last that is taken has other faults as well.
        let beyond = records.len() - wanted.saturating_sub(256).max(1);
        put_faults(random, records, beyond);
    }
}

fn change_bytes(random: &mut Random, bytes: &mut Vec<u8>) {
    for _ in 0..random.between(1, 4) {
        if !bytes.is_empty() {
            let at = random.below(bytes.len() as u64) as usize;
            bytes[at] = random.below(256) as u8;
        }
    }
}

fn flip_bit(random: &mut Random, bytes: &mut Vec<u8>) {
    if !bytes.is_empty() {
        let at = random.below(bytes.len() as u64) as usize;
        bytes[at] ^= 1 << random.below(8);
    }
}

fn cut(random: &mut Random, bytes: &mut Vec<u8>) {
    bytes.truncate(random.below(bytes.len() as u64 + 1) as usize);
}

/// The file ends after some whole records, or up to five bytes later.
fn cut_at_border(random: &mut Random, records: &Records, bytes: &mut Vec<u8>) {
    let whole = random.below(records.len() as u64 + 1) as usize;
    let border = records[..whole].concat().len();
    bytes.truncate(border + random.below(6) as usize);
}

fn add_trailing(random: &mut Random, bytes: &mut Vec<u8>) {
    for _ in 0..random.pick(&[1, 2, 3, 4, 16, 40]) {
        let any = random.below(256) as u8;
        bytes.push(random.pick(&[0, 3, 12, any]));
    }
}

/// A tail that takes the file past the 8,192 bytes the program reads.
fn add_long_tail(random: &mut Random, bytes: &mut Vec<u8>) {
    let wanted = random.pick(&[8_191, 8_192, 8_193, 8_200, 11_000]);
    let filler = random.pick(&[0, 255]);
    if bytes.len() < wanted {
        bytes.resize(wanted, filler);
    }
}

fn only_random(random: &mut Random, bytes: &mut Vec<u8>) {
    *bytes = (0..random.below(60))
        .map(|_| random.below(256) as u8)
        .collect();
}
