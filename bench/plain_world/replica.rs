//! A replica, and the steps that it takes.
use std::collections::BTreeMap;
use std::rc::Rc;

use crate::disk::Disk;
use crate::run::Run;
use crate::table::{Call, Entry, Row, Table};
use crate::wire::*;

const MOST_ENTRIES: usize = 64;
const TICKS: u8 = 4;

type Votes = BTreeMap<u64, Vote>;

#[derive(Clone, Copy)]
pub struct Vote {
    ballot: u64,
    entry: Entry,
}

/// A proposal that waits for votes.
pub struct Flight {
    slot: u64,
    entry: Entry,
    accepted: u8,
    waited: u8,
}

/// What a replica is: who has promised and accepted is a set of bits.
pub enum Term {
    Follower,
    Candidate { ballot: u64, first: u64, heard: u8, best: Votes },
    Leader { ballot: u64, best: Votes, flight: Option<Flight> },
}

/// What comes of a step: letters by addressee, and a call.
pub struct Step {
    pub letters: [Vec<u8>; 7],
    pub call: Option<Call>,
    asked: bool,
    copied: bool,
}

pub struct Replica {
    me: usize,
    run: Rc<Run>,
    pub disk: Disk,
    tried: u64,
    promised: u64,
    votes: Votes,
    base: u64,
    rows: Vec<Row>,
    learned: Vec<Entry>,
    pub table: Table,
    pub term: Term,
    seen: u64,
}

impl Replica {
    /// A replica that starts with what its disk has.
    pub fn start(me: usize, run: &Rc<Run>, disk: Disk) -> Replica {
        let rows = Table::fresh_rows(run);
        let (run, table) = (Rc::clone(run), Table::of(run, &rows));
        let (votes, learned, term) = (Votes::new(), Vec::new(), Term::Follower);
        let mut it =
            Replica { me, run, disk, tried: 0, promised: 0, votes, base: 0, rows, learned, table, term, seen: 0 };
        for record in it.disk.records() {
            it.take_record(&record);
        }
        it.table = Table::of(&it.run, &it.rows);
        it.seen = it.promised.max(8 * it.tried + me as u64);
        it
    }

    fn take_record(&mut self, record: &Packet) {
        match record.kind {
            BASE => self.base = record.slot,
            BASE_ROW => self.rows[record.job as usize] = record.row(),
            _ => self.promised = self.promised.max(record.ballot),
        }
        if record.kind == TRIED {
            self.tried = record.ballot / 8;
        }
        if record.kind == VOTED {
            self.votes.insert(record.slot, Vote { ballot: record.ballot, entry: record.entry() });
        }
    }

    pub fn prefix(&self) -> u64 {
        self.base + self.learned.len() as u64
    }

    fn is_majority(&self, set: u8) -> bool {
        set.count_ones() as usize > self.run.members / 2
    }

    pub fn is_free(&self) -> bool {
        match &self.term {
            Term::Leader { best, flight: None, .. } => best.range(self.prefix()..).next().is_none(),
            _ => false,
        }
    }

    // Causes of steps.

    pub fn campaign(&mut self) -> Step {
        let mut step = Step::new();
        let ballot = 8 * (self.tried.max(self.seen / 8) + 1) + self.me as u64;
        (self.tried, self.promised) = (ballot / 8, ballot);
        self.disk.append(Packet::of(TRIED, ballot, 0));
        let first = self.prefix();
        let best = self.votes.range(first..).map(|(slot, vote)| (*slot, *vote)).collect();
        self.term = Term::Candidate { ballot, first, heard: 1 << self.me, best };
        self.tell_all(&mut step, Packet::of(PREPARE, ballot, first));
        self.lead_if_promised();
        step
    }

    pub fn tick(&mut self, now: i64) -> Step {
        let mut step = Step::new();
        if self.learned.len() >= MOST_ENTRIES {
            self.rebase(self.prefix(), self.table.rows.clone());
        } else if let Term::Leader { flight, .. } = &mut self.term {
            match flight {
                Some(flight) => {
                    flight.waited = (flight.waited + 1) % TICKS;
                    self.ask_again(&mut step);
                }
                None => self.go_on(&mut step, now),
            }
        }
        step
    }

    pub fn answer(&mut self, answer: Call) -> Step {
        let mut step = Step::new();
        if self.is_free() && self.table.is_open(answer.job, answer.at) {
            let (job, at, launched) = (answer.job, answer.at, answer.launched);
            self.propose(&mut step, Entry::End { job, at, launched });
        }
        step
    }

    pub fn hear(&mut self, sender: usize, bytes: &[u8]) -> Step {
        let mut step = Step::new();
        let packets: Vec<Packet> = bytes.chunks_exact(PACKET).map(Packet::read).collect();
        let mut at = 0;
        while at < packets.len() {
            let members = if matches!(packets[at].kind, PROMISE | SNAPSHOT) { packets[at].old as usize } else { 0 };
            self.hear_packet(&mut step, sender, &packets[at], &packets[at + 1..at + 1 + members]);
            at += 1 + members;
        }
        step
    }

    // A leader and its proposals.

    fn ask_again(&self, step: &mut Step) {
        if let Term::Leader { ballot, flight: Some(flight), .. } = &self.term {
            let others = (0..self.run.members).filter(|other| flight.accepted >> other & 1 == 0);
            for other in others.filter(|_| flight.waited == 0) {
                self.tell(step, other, Packet::of(ACCEPT, *ballot, flight.slot).with_entry(flight.entry));
            }
        }
    }

    fn go_on(&mut self, step: &mut Step, now: i64) {
        let prefix = self.prefix();
        let Term::Leader { ballot, best, .. } = &self.term else {
            return;
        };
        if best.range(prefix..).next().is_some() {
            let entry = best.get(&prefix).map_or(Entry::Noop, |vote| vote.entry);
            self.propose(step, entry);
        } else if let Some(call) = self.table.to_call(now, self.me) {
            step.call = Some(call);
        } else if let Some(start) = self.table.to_start(now) {
            self.propose(step, start);
        } else {
            self.tell_all(step, Packet::of(LEAD, *ballot, prefix));
        }
    }

    fn propose(&mut self, step: &mut Step, entry: Entry) {
        let (slot, me) = (self.prefix(), self.me);
        let Term::Leader { ballot, flight, .. } = &mut self.term else {
            return;
        };
        let ballot = *ballot;
        *flight = Some(Flight { slot, entry, accepted: 1 << me, waited: 0 });
        self.vote(slot, ballot, entry);
        self.tell_all(step, Packet::of(ACCEPT, ballot, slot).with_entry(entry));
        self.choose_if_accepted(step);
    }

    fn choose_if_accepted(&mut self, step: &mut Step) {
        if let Term::Leader { flight: Some(flight), .. } = &self.term {
            let (slot, entry) = (flight.slot, flight.entry);
            if self.is_majority(flight.accepted) {
                self.learn(entry);
                self.tell_all(step, Packet::of(KNOWN, 0, slot).with_entry(entry));
            }
        }
    }

    fn lead_if_promised(&mut self) {
        if let Term::Candidate { ballot, heard, best, .. } = &mut self.term {
            let (ballot, heard, best) = (*ballot, *heard, std::mem::take(best));
            if self.is_majority(heard) {
                self.term = Term::Leader { ballot, best, flight: None };
            } else if let Term::Candidate { best: kept, .. } = &mut self.term {
                *kept = best;
            }
        }
    }

    // What is changed.

    fn observe(&mut self, ballot: u64) {
        self.seen = self.seen.max(ballot);
        if let Term::Candidate { ballot: own, .. } | Term::Leader { ballot: own, .. } = &self.term {
            if ballot > *own {
                self.term = Term::Follower;
            }
        }
    }

    fn vote(&mut self, slot: u64, ballot: u64, entry: Entry) {
        self.votes.insert(slot, Vote { ballot, entry });
        self.promised = ballot;
        self.disk.append(Packet::of(VOTED, ballot, slot).with_entry(entry));
    }

    fn learn(&mut self, entry: Entry) {
        self.table.apply(entry);
        self.learned.push(entry);
        self.end_flight();
    }

    fn end_flight(&mut self) {
        let prefix = self.prefix();
        if let Term::Leader { flight, .. } = &mut self.term {
            *flight = flight.take().filter(|flight| flight.slot >= prefix);
        }
    }

    fn rebase(&mut self, slot: u64, rows: Vec<Row>) {
        let over = ((slot - self.base) as usize).min(self.learned.len());
        self.learned.drain(..over);
        (self.base, self.rows) = (slot, rows);
        self.votes = self.votes.split_off(&slot);
        let mut records = vec![Packet { old: self.rows.len() as u64, ..Packet::of(BASE, 0, slot) }];
        records.extend(self.rows.iter().enumerate().map(|(job, row)| Packet::of_row(BASE_ROW, slot, job, row)));
        if self.tried > 0 {
            records.push(Packet::of(TRIED, 8 * self.tried + self.me as u64, 0));
        }
        if self.promised > 8 * self.tried + self.me as u64 {
            records.push(Packet::of(PROMISED, self.promised, 0));
        }
        let votes = self.votes.iter();
        records.extend(votes.map(|(slot, vote)| Packet::of(VOTED, vote.ballot, *slot).with_entry(vote.entry)));
        self.disk.rewrite(&records);
    }

    // What is told.

    fn tell(&self, step: &mut Step, other: usize, packet: Packet) {
        Packet { from: self.me as u8, ..packet }.write(&mut step.letters[other]);
    }

    fn tell_all(&self, step: &mut Step, packet: Packet) {
        for other in (0..self.run.members).filter(|other| *other != self.me) {
            self.tell(step, other, packet);
        }
    }

    fn tell_known(&self, step: &mut Step, other: usize, slot: u64) {
        for at in slot..self.prefix() {
            let entry = self.learned[(at - self.base) as usize];
            self.tell(step, other, Packet::of(KNOWN, 0, at).with_entry(entry));
        }
    }

    fn copy_to(&self, step: &mut Step, other: usize) {
        if !step.copied {
            step.copied = true;
            self.tell(step, other, Packet { old: self.rows.len() as u64, ..Packet::of(SNAPSHOT, 0, self.base) });
            for (job, row) in self.rows.iter().enumerate() {
                self.tell(step, other, Packet::of_row(ROW, self.base, job, row));
            }
            self.tell_known(step, other, self.base);
        }
    }

    fn ask_below(&self, step: &mut Step, other: usize, slot: u64) {
        if slot > self.prefix() {
            self.tell(step, other, Packet::of(ASK_FROM, 0, self.prefix()));
        }
    }

    // What is heard.

    fn hear_packet(&mut self, step: &mut Step, sender: usize, packet: &Packet, group: &[Packet]) {
        let (ballot, slot) = (packet.ballot, packet.slot);
        match packet.kind {
            KNOWN | ASK_FROM | SNAPSHOT => {}
            NACK => self.observe(packet.old),
            _ => self.observe(ballot),
        }
        match packet.kind {
            PREPARE => self.hear_prepare(step, sender, ballot, slot),
            PROMISE => self.hear_promise(sender, ballot, slot, group),
            ACCEPT => self.hear_accept(step, sender, packet),
            ACCEPTED => self.hear_accepted(step, sender, ballot, slot),
            KNOWN => self.hear_known(step, sender, packet),
            ASK_FROM if slot < self.base => self.copy_to(step, sender),
            ASK_FROM => self.tell_known(step, sender, slot),
            SNAPSHOT => self.hear_snapshot(slot, group),
            LEAD => self.ask_below(step, sender, slot),
            _ => {}
        }
    }

    fn hear_prepare(&mut self, step: &mut Step, sender: usize, ballot: u64, slot: u64) {
        if ballot <= self.promised {
            self.tell(step, sender, Packet { old: self.promised, ..Packet::of(NACK, ballot, 0) });
        } else if slot < self.base {
            self.copy_to(step, sender);
        } else {
            self.promised = ballot;
            self.disk.append(Packet::of(PROMISED, ballot, 0));
            let count = self.votes.range(slot..).count() as u64;
            self.tell(step, sender, Packet { old: count, ..Packet::of(PROMISE, ballot, slot) });
            for (at, vote) in self.votes.range(slot..) {
                let told = Packet { old: vote.ballot, ..Packet::of(OLD_VOTE, ballot, *at) };
                self.tell(step, sender, told.with_entry(vote.entry));
            }
        }
    }

    fn hear_promise(&mut self, sender: usize, promised: u64, slot: u64, group: &[Packet]) {
        let Term::Candidate { ballot, first, heard, best } = &mut self.term else {
            return;
        };
        if (*ballot, *first) != (promised, slot) {
            return;
        }
        *heard |= 1 << sender;
        for told in group {
            let vote = Vote { ballot: told.old, entry: told.entry() };
            let kept = best.entry(told.slot).or_insert(vote);
            if vote.ballot > kept.ballot {
                *kept = vote;
            }
        }
        self.lead_if_promised();
    }

    fn hear_accept(&mut self, step: &mut Step, sender: usize, packet: &Packet) {
        let (ballot, slot) = (packet.ballot, packet.slot);
        if ballot < self.promised {
            self.tell(step, sender, Packet { old: self.promised, ..Packet::of(NACK, ballot, 0) });
        } else if slot < self.base {
            self.copy_to(step, sender);
        } else {
            if self.votes.get(&slot).is_none_or(|vote| vote.ballot != ballot) {
                self.vote(slot, ballot, packet.entry());
            }
            self.tell(step, sender, Packet::of(ACCEPTED, ballot, slot));
            self.ask_below(step, sender, slot);
        }
    }

    fn hear_accepted(&mut self, step: &mut Step, sender: usize, accepted: u64, slot: u64) {
        if let Term::Leader { ballot, flight: Some(flight), .. } = &mut self.term {
            if (*ballot, flight.slot) == (accepted, slot) {
                flight.accepted |= 1 << sender;
                self.choose_if_accepted(step);
            }
        }
    }

    fn hear_known(&mut self, step: &mut Step, sender: usize, packet: &Packet) {
        if packet.slot == self.prefix() {
            self.learn(packet.entry());
        } else if packet.slot > self.prefix() && !step.asked {
            step.asked = true;
            self.tell(step, sender, Packet::of(ASK_FROM, 0, self.prefix()));
        }
    }

    fn hear_snapshot(&mut self, slot: u64, group: &[Packet]) {
        if slot > self.prefix() {
            let rows: Vec<Row> = group.iter().map(Packet::row).collect();
            self.table = Table::of(&self.run, &rows);
            self.rebase(slot, rows);
            self.end_flight();
        }
    }
}

impl Step {
    fn new() -> Step {
        Step { letters: Default::default(), call: None, asked: false, copied: false }
    }
}
