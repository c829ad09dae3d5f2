//! What one would write in place of `morph` by hand: reads events and applies them one after another to plain tables, on
//! one thread, with no graph, no attempts and no proof. `bench/measure --plain` builds it and compares the two.

mod apply;
mod events;
mod generate;
mod lines;
mod settings;
mod text;

use apply::{apply, MOST_TARGETS};
use events::{Batch, Next, Reader};
use generate::Generated;
use settings::{settings, Settings, USAGE};
use std::io::{self, Read, Write};
use std::process::ExitCode;
use text::{put_end, put_event, put_refused};

enum Fault {
    Read,
    Write,
}

fn main() -> ExitCode {
    let words = std::env::args_os().skip(1);
    let Some(s) = settings(words.map(|word| word.to_string_lossy().into_owned())) else {
        eprintln!("{USAGE}");
        return ExitCode::from(2);
    };
    let run = if s.generated {
        fold(&s, Generated::new(s.app, s.seed, s.events, s.size))
    } else {
        fold(&s, io::stdin().lock())
    };
    match run {
        Ok(status) => ExitCode::from(status),
        Err(Fault::Read) => {
            eprintln!("morph: read failed");
            ExitCode::from(4)
        }
        Err(Fault::Write) => {
            eprintln!("morph: write failed");
            ExitCode::from(5)
        }
    }
}

fn fold<R: Read>(s: &Settings, source: R) -> Result<u8, Fault> {
    let mut cells = vec![0u64; s.app.tables().len() * s.size as usize];
    let mut reader = Reader::new(source, s.app, s.size);
    let mut batch = Batch::default();
    let mut values = [0; MOST_TARGETS];
    let (mut committed, mut aborted) = (0, 0);
    let mut text = Vec::with_capacity(1 << 20);
    let mut out = io::stdout().lock();
    let mut write = |text: &mut Vec<u8>| {
        out.write_all(text)
            .and_then(|()| out.flush())
            .map_err(|_| Fault::Write)?;
        text.clear();
        Ok(())
    };
    loop {
        match reader.next_batch(&mut batch).map_err(|_| Fault::Read)? {
            Next::Batch => {
                for event in &batch.events {
                    let targets = batch.targets_of(event);
                    let commits = apply(event, targets, &mut cells, &mut values);
                    if commits {
                        committed += 1;
                    } else {
                        aborted += 1;
                    }
                    if !s.generated {
                        let values = values[..targets.len()].iter().copied();
                        put_event(&mut text, event.ts, commits.then_some(values));
                    }
                }
                if !s.generated {
                    write(&mut text)?;
                }
            }
            Next::Refused { line, cause } => {
                put_refused(&mut text, line, cause);
                write(&mut text)?;
                return Ok(3);
            }
            Next::End => {
                let value = |at: usize| cells[at];
                put_end(
                    &mut text,
                    s.app,
                    s.size,
                    s.generated,
                    value,
                    committed,
                    aborted,
                );
                write(&mut text)?;
                return Ok(0);
            }
        }
    }
}
