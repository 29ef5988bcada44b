//! Why a command ended without its work done.

use std::fmt::Display;
use std::io;

use danumrikal::Refusal;

/// The reason, with the exit status: what was tried and why it failed, and what
/// to do.
pub struct Failure {
    status: u8,
    what: String,
    advice: String,
}

impl Failure {
    /// A call was refused: 1. What was tried is told by the command.
    pub fn refused(tried: impl Display, refusal: Refusal) -> Failure {
        Failure {
            status: 1,
            what: format!("{tried}: {refusal}"),
            advice: advice(refusal).to_owned(),
        }
    }

    /// A refusal with words of its own: 1.
    pub fn told(what: impl Into<String>, advice: impl Into<String>) -> Failure {
        Failure {
            status: 1,
            what: what.into(),
            advice: advice.into(),
        }
    }

    /// What was printed tells it all: 1.
    pub fn printed() -> Failure {
        Failure::told("", "")
    }

    /// The words are no command: 2.
    pub fn usage(command: &str, what: impl Into<String>) -> Failure {
        let (tried, help) = match command {
            "" => (String::new(), "danumrikal --help".to_owned()),
            command => (
                format!("{command}: "),
                format!("danumrikal {command} --help"),
            ),
        };
        Failure {
            status: 2,
            what: format!("{tried}{}", what.into()),
            advice: format!("'{help}' says how it goes"),
        }
    }

    /// A file could not be read or written: 3.
    pub fn io(tried: impl Display, error: &io::Error) -> Failure {
        Failure::file(format!("{tried}: {}", reason(error)), io_advice(error))
    }

    /// A file is not what it must be: 3.
    pub fn file(what: impl Into<String>, advice: impl Into<String>) -> Failure {
        Failure {
            status: 3,
            what: what.into(),
            advice: advice.into(),
        }
    }

    /// The exit status.
    pub fn status(&self) -> u8 {
        self.status
    }

    /// Tells it on standard error, if there is something to tell.
    pub fn tell(&self) {
        if !self.what.is_empty() {
            eprintln!("danumrikal: {}", self.what);
        }
        if !self.advice.is_empty() {
            eprintln!("  {}", self.advice);
        }
    }
}

/// What to do about a refusal.
fn advice(refusal: Refusal) -> &'static str {
    match refusal {
        Refusal::TooShort => "a pool has at least 1 page",
        Refusal::TooLong => "a pool has at most 4096 pages",
        Refusal::NotSound => {
            "'danumrikal check' says which rule is broken, 'danumrikal mend' makes a sound copy"
        }
        Refusal::NoRoom => "give blocks back or ask for less; 'danumrikal map' shows what is free",
        Refusal::Outside => "offsets count from the first page and end with the last",
        Refusal::NotTaken | Refusal::NotAStart => {
            "'danumrikal report --blocks' lists the blocks that can be given back"
        }
        Refusal::NothingAsked => "ask for 1 byte or more",
        Refusal::WrongLength => "the two files must be as long as each other, and of one edition",
        Refusal::BeyondMending => {
            "what tells the blocks in use is damaged too: go back to an older copy"
        }
        Refusal::OtherBlocks => "make the copy anew with 'danumrikal mend'",
        _ => "docs/SPEC.md, section 5, has all refusals",
    }
}

/// What the system says, without its number.
pub fn reason(error: &io::Error) -> String {
    let text = error.to_string();
    match text.split_once(" (os error") {
        Some((reason, _)) => reason.to_owned(),
        None => text,
    }
}

/// What to do about an error of the system.
fn io_advice(error: &io::Error) -> &'static str {
    match error.kind() {
        io::ErrorKind::NotFound => "look at the name and the folder",
        io::ErrorKind::PermissionDenied => "look at who may read and write the file and its folder",
        io::ErrorKind::StorageFull | io::ErrorKind::QuotaExceeded | io::ErrorKind::FileTooLarge => {
            "make room and try again; files that were there are as they were"
        }
        io::ErrorKind::IsADirectory => "name a file in it",
        _ => "files that were there are as they were",
    }
}
