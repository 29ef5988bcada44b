//! `give`: blocks back, all or none.

use danumrikal::{Answer, Failed, Offset, Pool, Request};

use crate::args::Args;
use crate::change::change;
use crate::failure::Failure;
use crate::{help, output, Command};

/// The command.
pub const COMMAND: Command = Command {
    name: "give",
    help: help::GIVE,
    flags: &[],
    valued: &[],
    run,
};

fn run(args: &mut Args) -> Result<(), Failure> {
    let path = args.file("FILE")?;
    let mut offsets = vec![Offset(args.word_number("OFFSET")?)];
    while args.more() {
        offsets.push(Offset(args.word_number("OFFSET")?));
    }
    let released = change("give", &path, |bytes| {
        give_back(bytes, &offsets).map_err(|Failed { place, refusal }| {
            let place = place as usize;
            let tried = format!("give {} {}", path.display(), offsets[place]);
            match offsets.len() {
                1 => Failure::refused(tried, refusal),
                all => {
                    let place = place + 1;
                    let tried = format!("{tried}, number {place} of {all}, nothing is given back");
                    Failure::refused(tried, refusal)
                }
            }
        })
    })?;
    let lines: String = released
        .iter()
        .map(|bytes| format!("back {bytes}\n"))
        .collect();
    output::print_done(&lines)
}

/// Gives all of them back, or none, and answers the bytes of each. These are not
/// told by a list of frees: single ones on a copy tell them.
fn give_back(bytes: &mut [u8], offsets: &[Offset]) -> Result<Vec<u32>, Failed> {
    let mut copy = bytes.to_vec();
    Pool::new(bytes).free_all(offsets)?;
    let requests: Vec<_> = offsets.iter().copied().map(Request::free).collect();
    let mut answers = vec![Answer::default(); requests.len()];
    let served = Pool::new(&mut copy).batch(&requests, &mut answers);
    served.expect("a pool that was sound");
    let told = |answer: &Answer| answer.value().expect("a block that was given back");
    Ok(answers.iter().map(told).collect())
}
