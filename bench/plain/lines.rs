//! Cutting bytes into lines, and lines into numbers.

use std::io::{self, Read};

const BUFFER: usize = 256 * 1024;
const LONGEST: usize = 1000;

/// Stands for every number above 10^12.
pub const TOO_GREAT: u64 = u64::MAX;

pub enum Line<'a> {
    /// Without its LF and its CR.
    Is(&'a [u8]),
    Long,
    End,
}

pub struct Lines<R> {
    source: R,
    buffer: Vec<u8>,
    start: usize,
    end: usize,
    ended: bool,
    pub number: u64,
}

impl<R: Read> Lines<R> {
    pub fn new(source: R) -> Lines<R> {
        Lines {
            source,
            buffer: vec![0; BUFFER],
            start: 0,
            end: 0,
            ended: false,
            number: 0,
        }
    }

    pub fn next_line(&mut self) -> io::Result<Line<'_>> {
        let (from, to) = loop {
            let kept = &self.buffer[self.start..self.end];
            if let Some(n) = kept.iter().position(|&b| b == b'\n') {
                let from = self.start;
                self.start += n + 1;
                break (from, from + n);
            }
            if kept.len() > LONGEST + 1 {
                self.number += 1;
                return Ok(Line::Long);
            }
            if self.ended {
                if kept.is_empty() {
                    return Ok(Line::End);
                }
                let from = self.start;
                self.start = self.end;
                break (from, self.end);
            }
            self.buffer.copy_within(self.start..self.end, 0);
            self.end -= self.start;
            self.start = 0;
            let got = match self.source.read(&mut self.buffer[self.end..]) {
                Err(fault) if fault.kind() == io::ErrorKind::Interrupted => continue,
                other => other?,
            };
            self.end += got;
            self.ended = got == 0;
        };
        self.number += 1;
        let line = &self.buffer[from..to];
        let line = line.strip_suffix(b"\r").unwrap_or(line);
        Ok(if line.len() > LONGEST {
            Line::Long
        } else {
            Line::Is(line)
        })
    }
}

/// The number that the word spells; None where it spells none.
pub fn read_number(word: &[u8]) -> Option<u64> {
    let mut one = [0];
    (read_numbers(word, &mut one)? == 1).then_some(one[0])
}

/// Reads numbers parted by one space each, and tells how many there are. None where
/// one isn't a number or there are more than `numbers` takes.
pub fn read_numbers(bytes: &[u8], numbers: &mut [u64]) -> Option<usize> {
    let mut count = 0;
    let mut at = 0;
    loop {
        let begin = at;
        let mut n = 0u64;
        while let Some(digit) = bytes.get(at).map(|b| b.wrapping_sub(b'0')) {
            if digit > 9 {
                break;
            }
            n = n.wrapping_mul(10).wrapping_add(digit as u64);
            at += 1;
        }
        let digits = at - begin;
        if digits == 0 || (digits > 1 && bytes[begin] == b'0') {
            return None;
        }
        if digits > 13 || n > 1_000_000_000_000 {
            n = TOO_GREAT;
        }
        *numbers.get_mut(count)? = n;
        count += 1;
        match bytes.get(at) {
            None => return Some(count),
            Some(b' ') => at += 1,
            Some(_) => return None,
        }
    }
}
