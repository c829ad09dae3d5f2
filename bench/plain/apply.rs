//! What one event does to the cells.

use crate::events::{Event, Form};

pub const MOST_TARGETS: usize = 4;

const GREATEST: u64 = 1_000_000_000_000;

/// Tells whether the event commits. Where it does, the cells and `values`, in the order
/// of the targets, have the new values; else the cells stay.
pub fn apply(
    event: &Event,
    targets: &[u32],
    cells: &mut [u64],
    values: &mut [u64; MOST_TARGETS],
) -> bool {
    let cell = |at: usize| cells[targets[at] as usize];
    let (a, b) = (event.a, event.b);
    match event.form {
        Form::Deposit => {
            values[0] = cell(0) + a;
            values[1] = cell(1) + b;
            if values[0] > GREATEST || values[1] > GREATEST {
                return false;
            }
        }
        Form::Transfer => {
            let src = cell(0);
            let asrc = cell(1);
            if src < a || asrc < b {
                return false;
            }
            values[0] = src - a;
            values[1] = asrc - b;
            values[2] = cell(2) + a;
            values[3] = cell(3) + b;
            if values[2] > GREATEST || values[3] > GREATEST {
                return false;
            }
        }
        Form::Write => values[0] = a,
        Form::Sum => {
            let mut sum = 0;
            for at in 1..targets.len() {
                values[at] = cell(at);
                sum += values[at];
            }
            if sum > a {
                return false;
            }
            values[0] = sum;
        }
        Form::Toll => {
            let segment = targets[0] as u64; // of table 0
            let speed = cell(0);
            let entries = cell(2);
            let bill = cell(3);
            let here = cell(1) == segment + 1;
            let toll = if speed < 4000 && entries > 50 {
                2 * (entries - 50) * (entries - 50)
            } else {
                0
            };
            if bill + toll > 1_000_000 || (!here && entries == GREATEST) {
                return false;
            }
            values[0] = if speed == 0 {
                100 * a
            } else {
                (speed + 100 * a) / 2
            };
            values[1] = segment + 1;
            values[2] = if here { entries } else { entries + 1 };
            values[3] = bill + toll;
        }
    }
    for (&target, &value) in targets.iter().zip(values.iter()) {
        cells[target as usize] = value;
    }
    true
}
