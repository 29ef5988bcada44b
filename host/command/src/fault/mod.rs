//! Where a pool breaks a rule. Which rule is broken the proved validation says;
//! here its place is looked for, in the order in which the rule is told.

mod counts;
mod header;
mod lists;
mod pages;

use std::fmt;

use danumrikal::Rule;

use crate::class;
use crate::records::{Records, NONE};

/// The place, and what is wrong there.
#[derive(Debug, PartialEq, Eq)]
pub struct Fault {
    /// Where.
    pub place: Place,
    /// What is wrong.
    pub what: String,
}

/// A place in the records.
#[derive(Clone, Copy, Debug, PartialEq, Eq)]
pub enum Place {
    /// The header.
    Header,
    /// The record of a class.
    Class(usize),
    /// The record of a page, or its map.
    Page(usize),
}

impl fmt::Display for Place {
    fn fmt(&self, f: &mut fmt::Formatter<'_>) -> fmt::Result {
        match self {
            Place::Header => f.write_str("header"),
            Place::Class(class) => write!(f, "class {}", class::chunk(*class)),
            Place::Page(page) => write!(f, "page {page}"),
        }
    }
}

impl fmt::Display for Fault {
    fn fmt(&self, f: &mut fmt::Formatter<'_>) -> fmt::Result {
        write!(f, "{} {}", self.place, self.what)
    }
}

impl Fault {
    /// The page, if the place is one.
    pub fn page(&self) -> Option<usize> {
        match self.place {
            Place::Page(page) => Some(page),
            _ => None,
        }
    }
}

fn fault(place: Place, what: impl Into<String>) -> Option<Fault> {
    let what = what.into();
    Some(Fault { place, what })
}

/// The first place that breaks this rule, which is the first broken one.
pub fn find(bytes: &[u8], rule: Rule) -> Option<Fault> {
    if rule == Rule::Header {
        return header::wrong_header(bytes);
    }
    let records = Records::of(bytes)?;
    match rule {
        Rule::Pages => pages::wrong_page(records),
        Rule::FreeRuns => lists::wrong_free_list(records),
        Rule::ClassLists => lists::wrong_class_list(records),
        Rule::InUse => counts::idle_page(records),
        Rule::Counts => counts::wrong_count(records),
        _ => None,
    }
}

/// A page as people write it.
fn named(page: usize) -> String {
    match page {
        NONE => "none".to_owned(),
        page => format!("page {page}"),
    }
}
