//! A world: replicas that take turns in rounds, what is on its way to each, the ledger of the scheduler, and the book.
use std::collections::BTreeMap;
use std::collections::btree_map::Entry::{Occupied, Vacant};
use std::mem::take;
use std::rc::Rc;

use crate::disk::Disk;
use crate::replica::{Replica, Step, Term};
use crate::run::{Run, minute_of};
use crate::table::Call;

#[derive(Clone, Copy)]
pub enum Cause {
    Campaign,
    Tick(i64),
    Hear(usize),
    Answer,
}

/// A turn of the book, which nothing reads again.
#[allow(dead_code)]
pub enum Turn {
    Did { who: usize, cause: Cause, call: Option<(Call, Call)> },
    Stopped { who: usize },
    Restarted { who: usize },
}

pub struct Letter {
    sender: usize,
    to: usize,
    #[allow(dead_code)]
    turn: usize,
    bytes: Box<[u8]>,
}

pub struct World {
    pub run: Rc<Run>,
    replicas: Vec<Replica>,
    runs: Vec<bool>,
    waits: Vec<Option<Call>>,
    mails: Vec<Vec<usize>>,
    letters: Vec<Letter>,
    pub turns: Vec<Turn>,
    pub held: BTreeMap<(u32, i64), Call>,
    latest: Option<i64>,
}

impl World {
    pub fn new(run: Run) -> World {
        let members = run.members;
        let run = Rc::new(run);
        World {
            replicas: (0..members).map(|who| Replica::start(who, &run, Disk::default())).collect(),
            run,
            runs: vec![true; members],
            waits: vec![None; members],
            mails: vec![Vec::new(); members],
            letters: Vec::new(),
            turns: Vec::new(),
            held: BTreeMap::new(),
            latest: None,
        }
    }

    /// Plays the script, and walks to the window's last minute.
    pub fn play(&mut self) {
        let run = Rc::clone(&self.run);
        for words in &run.script {
            self.command(words);
        }
        self.walk(run.until - 1);
    }

    fn command(&mut self, words: &[String]) {
        let number = |at: usize| words[at].parse::<usize>().expect("a number");
        match (words[0].as_str(), words.len()) {
            ("round", 3) => (0..number(2)).for_each(|_| self.round(minute_of(&words[1]))),
            ("campaign", 2) if self.runs[number(1)] => self.campaign(number(1)),
            ("stop", 2) if self.runs[number(1)] => self.stop(number(1)),
            ("restart", 2) if !self.runs[number(1)] => self.restart(number(1)),
            ("campaign" | "stop" | "restart", 2) => {}
            _ => panic!("no command that is played here: {words:?}"),
        }
    }

    // Turns.

    fn take_turn(&mut self, who: usize, cause: Cause) {
        let replica = &mut self.replicas[who];
        let step = match cause {
            Cause::Campaign => replica.campaign(),
            Cause::Tick(now) => replica.tick(now),
            Cause::Hear(letter) => replica.hear(self.letters[letter].sender, &self.letters[letter].bytes),
            Cause::Answer => replica.answer(self.waits[who].expect("an answer that waits")),
        };
        if let Cause::Tick(now) = cause {
            self.latest = self.latest.max(Some(now));
        }
        self.commit(who, cause, step);
    }

    fn commit(&mut self, who: usize, cause: Cause, step: Step) {
        let call = step.call.map(|call| (call, self.call(call)));
        self.waits[who] = call.map(|(_, held)| held);
        let turn = self.turns.len();
        for (to, bytes) in step.letters.into_iter().enumerate().filter(|(_, bytes)| !bytes.is_empty()) {
            self.letters.push(Letter { sender: who, to, turn, bytes: bytes.into_boxed_slice() });
        }
        self.turns.push(Turn::Did { who, cause, call });
    }

    /// What the scheduler holds under the name of a call.
    fn call(&mut self, call: Call) -> Call {
        match self.held.entry((call.job, call.at)) {
            Occupied(held) => *held.get(),
            Vacant(place) => *place.insert(call),
        }
    }

    fn stop(&mut self, who: usize) {
        self.runs[who] = false;
        self.waits[who] = None;
        self.mails[who].clear();
        self.turns.push(Turn::Stopped { who });
    }

    fn restart(&mut self, who: usize) {
        self.runs[who] = true;
        let disk = take(&mut self.replicas[who].disk);
        self.replicas[who] = Replica::start(who, &self.run, disk);
        self.turns.push(Turn::Restarted { who });
    }

    fn deliver(&mut self, first: usize) {
        for number in first..self.letters.len() {
            let to = self.letters[number].to;
            if self.runs[to] {
                self.mails[to].push(number);
            }
        }
    }

    fn round(&mut self, at: i64) {
        let first = self.letters.len();
        for who in (0..self.run.members).filter(|who| self.runs[*who]).collect::<Vec<_>>() {
            if self.waits[who].is_some() {
                self.take_turn(who, Cause::Answer);
            }
            for letter in take(&mut self.mails[who]) {
                self.take_turn(who, Cause::Hear(letter));
            }
            self.take_turn(who, Cause::Tick(at));
        }
        self.deliver(first);
    }

    fn campaign(&mut self, who: usize) {
        let first = self.letters.len();
        self.take_turn(who, Cause::Campaign);
        self.deliver(first);
    }

    // Settling and walking.

    fn is_quiet(&self, who: usize, at: i64) -> bool {
        let leader = &self.replicas[who];
        let level = self.replicas.iter().all(|replica| replica.prefix() == leader.prefix());
        level && leader.is_free() && self.waits[who].is_none() && !leader.table.asks(at)
    }

    fn drain(&mut self, who: usize, at: i64) {
        while !self.is_quiet(who, at) {
            if matches!(self.replicas[who].term, Term::Follower) {
                self.campaign(who);
            }
            self.round(at);
        }
    }

    /// All that are stopped start, and the one that has learned most leads until it is quiet.
    fn settle(&mut self, at: i64) -> usize {
        for who in 0..self.run.members {
            if !self.runs[who] {
                self.restart(who);
            }
        }
        self.mails.iter_mut().for_each(Vec::clear);
        let most = self.replicas.iter().map(Replica::prefix).max();
        let who = self.replicas.iter().position(|replica| Some(replica.prefix()) == most).expect("a replica");
        self.campaign(who);
        self.drain(who, at);
        who
    }

    fn walk(&mut self, to: i64) {
        let begin = self.latest.unwrap_or(self.run.from).min(to);
        let who = self.settle(begin);
        for minute in begin + 1..=to {
            if self.replicas[who].table.asks(minute) {
                self.drain(who, minute);
            }
        }
    }
}
