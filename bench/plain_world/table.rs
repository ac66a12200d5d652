//! The launch table.
use std::collections::BTreeSet;
use std::rc::Rc;

use crate::run::Run;

/// An entry of the log.
#[derive(Clone, Copy, PartialEq)]
pub enum Entry {
    Noop,
    Start { job: u32, at: i64, now: i64 },
    End { job: u32, at: i64, launched: bool },
}

/// What is known of a job: which launch started last, when that was decided if it is open, and what was made.
#[derive(Clone, Copy, Default)]
pub struct Row {
    pub cursor: Option<i64>,
    pub open: Option<i64>,
    pub last: Option<i64>,
    pub launched: u32,
    pub voided: u32,
}

/// A call of the scheduler, and what it holds for it.
#[derive(Clone, Copy)]
pub struct Call {
    pub job: u32,
    pub at: i64,
    pub launched: bool,
    #[allow(dead_code)]
    pub now: i64,
    #[allow(dead_code)]
    pub by: usize,
}

/// The launch table: a row for each job, and the table's own, in which there is nothing; with the next due instants of
/// the jobs that aren't open, and the jobs that are.
pub struct Table {
    run: Rc<Run>,
    pub rows: Vec<Row>,
    idle: BTreeSet<(i64, u32)>,
    open: BTreeSet<u32>,
}

impl Table {
    /// The rows at first.
    pub fn fresh_rows(run: &Run) -> Vec<Row> {
        vec![Row::default(); run.dues.len() + 1]
    }

    pub fn of(run: &Rc<Run>, rows: &[Row]) -> Table {
        let mut table =
            Table { run: Rc::clone(run), rows: rows.to_vec(), idle: BTreeSet::new(), open: BTreeSet::new() };
        for job in 0..run.dues.len() {
            table.place(job as u32);
        }
        table
    }

    fn next_due(&self, job: u32) -> Option<i64> {
        let dues = &self.run.dues[job as usize];
        let cursor = self.rows[job as usize].cursor;
        dues.get(cursor.map_or(0, |last| dues.partition_point(|due| *due <= last))).copied()
    }

    fn place(&mut self, job: u32) {
        if self.rows[job as usize].open.is_some() {
            self.open.insert(job);
        } else if let Some(due) = self.next_due(job) {
            self.idle.insert((due, job));
        }
    }

    pub fn is_open(&self, job: u32, at: i64) -> bool {
        let row = &self.rows[job as usize];
        row.open.is_some() && row.cursor == Some(at)
    }

    pub fn apply(&mut self, entry: Entry) {
        match entry {
            Entry::Start { job, at, now } if at <= now && self.idle.remove(&(at, job)) => {
                let row = &mut self.rows[job as usize];
                (row.cursor, row.open) = (Some(at), Some(now));
                self.open.insert(job);
            }
            Entry::End { job, at, launched } if self.is_open(job, at) => {
                let row = &mut self.rows[job as usize];
                row.open = None;
                row.launched += launched as u32;
                row.voided += !launched as u32;
                row.last = if launched { Some(at) } else { row.last };
                self.open.remove(&job);
                self.place(job);
            }
            _ => {}
        }
    }

    /// The first launch that is open and has come.
    pub fn to_call(&self, now: i64, by: usize) -> Option<Call> {
        let has_come = |job: &&u32| self.rows[**job as usize].cursor.is_some_and(|at| at <= now);
        let job = *self.open.iter().find(has_come)?;
        let at = self.rows[job as usize].cursor?;
        Some(Call { job, at, launched: now <= at + self.run.grace, now, by })
    }

    /// The first job that may start.
    pub fn to_start(&self, now: i64) -> Option<Entry> {
        let due = self.idle.range(..=(now, u32::MAX));
        due.min_by_key(|(_, job)| *job).map(|&(at, job)| Entry::Start { job, at, now })
    }

    pub fn asks(&self, now: i64) -> bool {
        self.to_call(now, 0).is_some() || self.to_start(now).is_some()
    }
}
