//! Plan file: the reader and the writer.

use crate::plan::{
    demand, judge_cores, judge_interval, judge_intervals, judge_slots_per_period, GivenPlan, Head,
    Refusal,
};

pub const MOST_WORKLOADS: usize = 256;

const HEAD: u16 = 1;
const INTERVAL: u16 = 2;
const WORKLOAD: u16 = 3;

/// A plan with the four lists of its workloads.
#[derive(Default)]
pub struct PlanFile {
    /// Plain, if it was read: a file has no place for the mark.
    pub head: Head,
    pub lengths: Vec<u16>,
    pub budgets: Vec<u16>,
    pub workload_cores: Vec<u8>,
    pub computing: Vec<u32>,
    pub requests: Vec<u32>,
    pub horizons: Vec<u16>,
}

impl PlanFile {
    pub fn plan(&self) -> GivenPlan<'_> {
        GivenPlan {
            head: self.head,
            lengths: &self.lengths,
            budgets: &self.budgets,
        }
    }
}

/// A refused file: why, and where the record at fault begins.
#[derive(Clone, Copy, PartialEq, Eq, Debug)]
pub struct RefusedFile {
    pub refusal: Refusal,
    pub offset: usize,
}

pub fn two_bytes(bytes: &[u8], at: usize) -> u16 {
    u16::from_le_bytes([bytes[at], bytes[at + 1]])
}

pub fn four_bytes(bytes: &[u8], at: usize) -> u32 {
    u32::from_le_bytes([bytes[at], bytes[at + 1], bytes[at + 2], bytes[at + 3]])
}

/// Reads a whole plan file.
pub fn read(bytes: &[u8]) -> Result<PlanFile, RefusedFile> {
    let mut reader = Reader::default();
    let mut offset = 0;
    while !(reader.is_complete() && offset == bytes.len()) {
        match reader.record(&bytes[offset..]) {
            Ok(length) => offset += length,
            Err(refusal) => return Err(RefusedFile { refusal, offset }),
        }
    }
    Ok(reader.file)
}

/// What has been read so far.
#[derive(Default)]
struct Reader {
    file: PlanFile,
    /// 0 until the first record is read.
    intervals: usize,
    total_periods: u32,
}

impl Reader {
    /// Have the first record and all intervals been read?
    fn is_complete(&self) -> bool {
        self.intervals > 0 && self.file.lengths.len() == self.intervals
    }

    /// The one kind of record allowed next.
    fn allowed_kind(&self) -> u16 {
        if self.intervals == 0 {
            HEAD
        } else if self.is_complete() {
            WORKLOAD
        } else {
            INTERVAL
        }
    }

    /// Reads the record that `bytes` begins with and gives its whole length.
    fn record(&mut self, bytes: &[u8]) -> Result<usize, Refusal> {
        demand(bytes.len() >= 4, Refusal::FileEnds)?;
        let length = usize::from(two_bytes(bytes, 0));
        let kind = two_bytes(bytes, 2);
        demand(kind == self.allowed_kind(), Refusal::RecordKind)?;
        let workloads = self.file.workload_cores.len();
        demand(
            kind != WORKLOAD || workloads < MOST_WORKLOADS,
            Refusal::Workloads,
        )?;
        let lawful_length = match kind {
            HEAD => length == 6,
            WORKLOAD => length == 12,
            _ => (4..=20).contains(&length) && length % 2 == 0,
        };
        demand(lawful_length, Refusal::RecordLength)?;
        demand(bytes.len() - 4 >= length, Refusal::FileEnds)?;
        let body = &bytes[4..4 + length];
        demand(body[1] == 0, Refusal::NotZero)?;
        match kind {
            HEAD => self.head(body)?,
            WORKLOAD => self.workload(body),
            _ => self.interval(body)?,
        }
        Ok(4 + length)
    }

    fn head(&mut self, body: &[u8]) -> Result<(), Refusal> {
        let slots_per_period = u32::from(two_bytes(body, 2));
        let intervals = usize::from(two_bytes(body, 4));
        judge_cores(body[0])?;
        judge_slots_per_period(slots_per_period)?;
        judge_intervals(intervals)?;
        self.file.head = Head {
            cores: body[0],
            slots_per_period,
            repeating: false,
        };
        self.intervals = intervals;
        Ok(())
    }

    fn interval(&mut self, body: &[u8]) -> Result<(), Refusal> {
        let cores = usize::from(self.file.head.cores);
        let mask = body[0];
        demand(u32::from(mask) >> cores == 0, Refusal::NotZero)?;
        let listed = mask.count_ones() as usize;
        demand(body.len() == 4 + 2 * listed, Refusal::RecordLength)?;
        let length = two_bytes(body, 2);
        let mut budgets = vec![0; cores];
        let mut at = 4;
        for (core, budget) in budgets.iter_mut().enumerate() {
            if mask & (1 << core) != 0 {
                *budget = two_bytes(body, at);
                demand(*budget != 0, Refusal::ListedZeroBudget)?;
                at += 2;
            }
        }
        let slots_per_period = self.file.head.slots_per_period;
        self.total_periods =
            judge_interval(self.total_periods, length, &budgets, slots_per_period)?;
        self.file.lengths.push(length);
        self.file.budgets.extend(budgets);
        Ok(())
    }

    fn workload(&mut self, body: &[u8]) {
        self.file.workload_cores.push(body[0]);
        self.file.computing.push(four_bytes(body, 2));
        self.file.requests.push(four_bytes(body, 6));
        self.file.horizons.push(two_bytes(body, 10));
    }
}

/// Judges 1 to 5, then 23 for a repeating plan (the head's zero byte would not
/// be zero), then 25, and gives the bytes of the file.
pub fn write(file: &PlanFile) -> Result<Vec<u8>, Refusal> {
    let plan = file.plan().judge()?;
    demand(!plan.repeating, Refusal::NotZero)?;
    let workloads = file.workload_cores.len();
    let counts = [
        file.computing.len(),
        file.requests.len(),
        file.horizons.len(),
    ];
    demand(
        workloads <= MOST_WORKLOADS && counts == [workloads; 3],
        Refusal::Workloads,
    )?;
    let mut bytes = Vec::new();
    let mut head = vec![file.head.cores, 0];
    head.extend((file.head.slots_per_period as u16).to_le_bytes());
    head.extend((file.lengths.len() as u16).to_le_bytes());
    write_record(&mut bytes, HEAD, &head);
    for (interval, &length) in file.lengths.iter().enumerate() {
        let body = interval_body(length, plan.interval_budgets(interval));
        write_record(&mut bytes, INTERVAL, &body);
    }
    for workload in 0..workloads {
        write_record(&mut bytes, WORKLOAD, &workload_body(file, workload));
    }
    Ok(bytes)
}

fn interval_body(length: u16, budgets: &[u16]) -> Vec<u8> {
    let mut mask = 0;
    let mut listed = Vec::new();
    for (core, &budget) in budgets.iter().enumerate() {
        if budget != 0 {
            mask |= 1 << core;
            listed.extend(budget.to_le_bytes());
        }
    }
    let mut body = vec![mask, 0];
    body.extend(length.to_le_bytes());
    body.extend(listed);
    body
}

fn workload_body(file: &PlanFile, workload: usize) -> Vec<u8> {
    let mut body = vec![file.workload_cores[workload], 0];
    body.extend(file.computing[workload].to_le_bytes());
    body.extend(file.requests[workload].to_le_bytes());
    body.extend(file.horizons[workload].to_le_bytes());
    body
}

fn write_record(bytes: &mut Vec<u8>, kind: u16, body: &[u8]) {
    bytes.extend((body.len() as u16).to_le_bytes());
    bytes.extend(kind.to_le_bytes());
    bytes.extend(body);
}
