//! Reading events and batches.

use crate::lines::{read_numbers, Line, Lines};
use crate::settings::App;
use std::collections::HashSet;
use std::io::{self, Read};

const GREATEST: u64 = 1_000_000_000_000;
const MOST_EVENTS: usize = 10_240;
const MOST_NUMBERS: usize = 7;

#[derive(Clone, Copy, PartialEq)]
pub enum Form {
    Deposit,
    Transfer,
    Write,
    Sum,
    Toll,
}

/// The targets of an event are `targets[first..first + count]` of its batch, each as
/// table * size + id, in the order of the operations. Every cell that an event reads
/// is among its targets.
#[derive(Clone, Copy)]
pub struct Event {
    pub ts: u64,
    pub a: u64,
    pub b: u64,
    pub first: u32,
    pub count: u8,
    pub form: Form,
}

#[derive(Default)]
pub struct Batch {
    /// In rising timestamp once the batch was read.
    pub events: Vec<Event>,
    pub targets: Vec<u32>,
}

impl Batch {
    pub fn targets_of(&self, event: &Event) -> &[u32] {
        let first = event.first as usize;
        &self.targets[first..first + event.count as usize]
    }
}

pub enum Next {
    Batch,
    End,
    Refused { line: u64, cause: &'static str },
}

pub struct Reader<R> {
    lines: Lines<R>,
    app: App,
    size: u64,
    closed_ts: u64,
}

impl<R: Read> Reader<R> {
    pub fn new(source: R, app: App, size: u32) -> Reader<R> {
        Reader {
            lines: Lines::new(source),
            app,
            size: size as u64,
            closed_ts: 0,
        }
    }

    /// Fills the batch. It has at least one event where the answer is Batch.
    pub fn next_batch(&mut self, batch: &mut Batch) -> io::Result<Next> {
        batch.events.clear();
        batch.targets.clear();
        let mut greatest = 0;
        let mut rising = true;
        let mut seen = HashSet::new(); // used once the events don't rise
        loop {
            let number = self.lines.number + 1;
            let refused = |cause| {
                Ok(Next::Refused {
                    line: number,
                    cause,
                })
            };
            let line = match self.lines.next_line()? {
                Line::Is(line) => line,
                Line::Long => return refused("long"),
                Line::End if batch.events.is_empty() => return Ok(Next::End),
                Line::End => break,
            };
            if line.is_empty() || line[0] == b'#' {
                continue;
            }
            if line == b"P" {
                if batch.events.is_empty() {
                    continue;
                }
                break;
            }
            let rules = Rules {
                app: self.app,
                size: self.size,
            };
            let event = match rules.read(line, &mut batch.targets) {
                Ok(event) => event,
                Err(cause) => return refused(cause),
            };
            if event.ts <= self.closed_ts {
                return refused("late");
            }
            if event.ts > greatest {
                greatest = event.ts;
            } else {
                if rising {
                    rising = false;
                    seen.extend(batch.events.iter().map(|event| event.ts));
                }
                if seen.contains(&event.ts) {
                    return refused("twice");
                }
            }
            if batch.events.len() == MOST_EVENTS {
                return refused("full");
            }
            if !rising {
                seen.insert(event.ts);
            }
            batch.events.push(event);
        }
        if !rising {
            batch.events.sort_unstable_by_key(|event| event.ts);
        }
        self.closed_ts = greatest;
        Ok(Next::Batch)
    }
}

struct Rules {
    app: App,
    size: u64,
}

impl Rules {
    /// The event of the line; its targets are put behind the others. Or the cause.
    fn read(&self, line: &[u8], targets: &mut Vec<u32>) -> Result<Event, &'static str> {
        let mut numbers = [0; MOST_NUMBERS];
        if line.len() < 2 || line[1] != b' ' {
            return Err("form");
        }
        let count = read_numbers(&line[2..], &mut numbers).ok_or("form")?;
        let n = &numbers[..count];
        let form = match (self.app, line[0], count) {
            (App::Ledger, b'D', 5) => Form::Deposit,
            (App::Ledger, b'X', 7) => Form::Transfer,
            (App::Grep, b'W', 3) => Form::Write,
            (App::Grep, b'G', 4..=6) => Form::Sum,
            (App::Toll, b'T', 4) => Form::Toll,
            _ => return Err("form"),
        };
        let (ids, amounts) = match form {
            Form::Deposit => (&n[1..3], &n[3..]),
            Form::Transfer => (&n[1..5], &n[5..]),
            Form::Sum => (&n[3..], &n[2..3]),
            Form::Write => (&n[1..2], &n[2..]),
            Form::Toll => (&n[1..3], &n[3..]),
        };
        let greatest = if form == Form::Toll { 100 } else { GREATEST };
        if n[0] == 0
            || n[0] > GREATEST
            || n[1] >= self.size
            || ids.iter().any(|&id| id >= self.size)
            || amounts.iter().any(|&amount| amount > greatest)
        {
            return Err("range");
        }
        let first = targets.len();
        let mut event = Event {
            ts: n[0],
            a: amounts[0],
            b: amounts.get(1).copied().unwrap_or(0),
            first: first as u32,
            count: 0,
            form,
        };
        let mut target = |table: u64, id: u64| targets.push((table * self.size + id) as u32);
        match form {
            Form::Deposit => {
                target(0, n[1]);
                target(1, n[2]);
            }
            Form::Transfer => {
                if n[1] == n[2] || n[3] == n[4] {
                    return Err("same");
                }
                target(0, n[1]);
                target(1, n[3]);
                target(0, n[2]);
                target(1, n[4]);
            }
            Form::Sum => {
                for (i, id) in ids.iter().enumerate() {
                    if *id == n[1] || ids[..i].contains(id) {
                        return Err("same");
                    }
                }
                target(0, n[1]);
                ids.iter().for_each(|&id| target(0, id));
            }
            Form::Write => target(0, n[1]),
            Form::Toll => {
                target(0, n[2]);
                target(1, n[1]);
                target(2, n[2]);
                target(3, n[1]);
            }
        }
        event.count = (targets.len() - first) as u8;
        Ok(event)
    }
}
