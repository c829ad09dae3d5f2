//! The words of the command. Names that a fold has no use for are passed over.

use crate::lines::{read_number, TOO_GREAT};

pub const USAGE: &str = "usage: morph app=ledger|grep|toll [name=value ...]";

#[derive(Clone, Copy, PartialEq)]
pub enum App {
    Ledger,
    Grep,
    Toll,
}

impl App {
    pub fn tables(self) -> &'static [&'static str] {
        match self {
            App::Ledger => &["acct", "asset"],
            App::Grep => &["cell"],
            App::Toll => &["spd", "at", "cnt", "bill"],
        }
    }
}

pub struct Settings {
    pub app: App,
    pub generated: bool,
    pub size: u32,
    pub seed: u64,
    pub events: u64,
}

pub fn settings(words: impl Iterator<Item = String>) -> Option<Settings> {
    let mut app = None;
    let mut s = Settings {
        app: App::Ledger,
        generated: false,
        size: 10_000,
        seed: 1,
        events: 1000,
    };
    for word in words {
        let (name, value) = word.split_once('=')?;
        match name {
            "app" | "self" => {
                if app.is_some() {
                    return None;
                }
                app = Some(match value {
                    "ledger" => App::Ledger,
                    "grep" => App::Grep,
                    "toll" => App::Toll,
                    _ => return None,
                });
                s.generated = name == "self";
            }
            "size" => s.size = number(value, 1, 1_000_000)? as u32,
            "seed" => s.seed = number(value, 0, 1_000_000_000_000)?,
            "events" => s.events = number(value, 0, 1_000_000)?,
            _ => {}
        }
    }
    s.app = app?;
    Some(s)
}

fn number(value: &str, least: u64, greatest: u64) -> Option<u64> {
    let n = read_number(value.as_bytes())?;
    (n != TOO_GREAT && n >= least && n <= greatest).then_some(n)
}
