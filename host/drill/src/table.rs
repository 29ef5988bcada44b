//! What the images are, and the table of it.

use command::view::{live_blocks, Block};
use danumrikal::{check, mend};

use crate::calls::{single, Kind, Trial};
use crate::steps::Image;

/// What an image is, in the order of the table's columns.
#[derive(Clone, Copy)]
enum Found {
    /// With the blocks before or after the call, or after some of the requests
    /// of a batch or a list.
    Sound,
    SoundOther,
    MendedBefore,
    MendedBetween,
    MendedAfter,
    /// With all blocks of one of these, and further ones that nobody took.
    MendedMore,
    MendedOther,
    /// Mend refuses with 13.
    Beyond,
}

const NAMES: [&str; 8] = [
    "sound",
    "sound, other blocks",
    "mended to before",
    "between",
    "after",
    "more",
    "other blocks",
    "13",
];

/// The live blocks before and after each request of a trial.
pub struct Judge {
    blocks: Vec<Vec<Block>>,
}

impl Judge {
    pub fn of(trial: &Trial) -> Judge {
        let mut bytes = trial.pool.clone();
        let live = |bytes: &[u8]| live_blocks(bytes).expect("a sound pool");
        let mut blocks = vec![live(&bytes)];
        for request in &trial.requests {
            single(&mut bytes, *request).expect("granted before");
            blocks.push(live(&bytes));
        }
        Judge { blocks }
    }

    fn found(&self, image: &[u8]) -> Found {
        let last = self.blocks.len() - 1;
        let place = |sound: &[u8]| {
            let blocks = live_blocks(sound).expect("a sound pool");
            let place = self.blocks.iter().position(|known| *known == blocks);
            (place, blocks)
        };
        if check(image).is_ok() {
            return match place(image) {
                (Some(_), _) => Found::Sound,
                (None, _) => Found::SoundOther,
            };
        }
        let mut copy = vec![0; image.len()];
        if mend(image, &mut copy).is_err() {
            return Found::Beyond;
        }
        match place(&copy) {
            (Some(0), _) => Found::MendedBefore,
            (Some(place), _) if place == last => Found::MendedAfter,
            (Some(_), _) => Found::MendedBetween,
            (None, blocks) => {
                let within = |known: &Vec<Block>| known.iter().all(|block| blocks.contains(block));
                match self.blocks.iter().any(within) {
                    true => Found::MendedMore,
                    false => Found::MendedOther,
                }
            }
        }
    }
}

/// A line of the table.
#[derive(Default)]
pub struct Row {
    calls: usize,
    stops: [usize; NAMES.len()],
    images: [usize; NAMES.len()],
}

impl Row {
    /// Counts the images of a trial.
    pub fn add(&mut self, judge: &Judge, images: &[Image]) {
        self.calls += 1;
        for image in images {
            let column = judge.found(&image.bytes) as usize;
            self.stops[column] += image.stops;
            self.images[column] += 1;
        }
    }

    /// The two lines of a kind: its instructions, and its images.
    pub fn line(&self, kind: Kind) -> String {
        let cells = |what: &str, counts: &[usize]| {
            let all: usize = counts.iter().sum();
            let counts: Vec<String> = counts.iter().map(usize::to_string).collect();
            format!("{what} | {all} | {} |", counts.join(" | "))
        };
        format!(
            "| {kind} | {} | {}\n| | | {}",
            self.calls,
            cells("instructions", &self.stops),
            cells("images", &self.images)
        )
    }
}

/// The head of the table.
pub fn head() -> String {
    let rule = "---:|".repeat(NAMES.len() + 1);
    let names = NAMES.join(" | ");
    format!("| Call | Calls | Counted | All | {names} |\n|---|---:|---|{rule}")
}
