use std::fmt;

/// The first rule of sound records (SPEC 3) that a pool breaks. `docs/RULES.md`
/// has a broken example of each.
///
/// ```
/// use danumrikal::{check, Rule};
///
/// assert_eq!(check(&[]), Err(Rule::Header));
/// assert_eq!(Rule::FreeRuns.to_string(), "free-run list (3)");
/// ```
#[non_exhaustive]
#[derive(Clone, Copy, Debug, PartialEq, Eq, Hash)]
pub enum Rule {
    /// The first byte is an edition, the length a pool's, and the header says so.
    Header = 1,
    /// Runs and class pages cover the pages, each recorded as such.
    Pages = 2,
    /// The list of free runs holds each once, and links lead back.
    FreeRuns = 3,
    /// The list of each class holds its pages with a free chunk once, and links
    /// lead back; full pages have no links.
    ClassLists = 4,
    /// Each class page has a chunk in use.
    InUse = 5,
    /// Free pages, and the used and total chunks of each class, are what can be
    /// counted; in edition 2 no peak is below its used.
    Counts = 6,
}

const ALL: [Rule; 6] = [
    Rule::Header,
    Rule::Pages,
    Rule::FreeRuns,
    Rule::ClassLists,
    Rule::InUse,
    Rule::Counts,
];

impl Rule {
    /// The rule with this number, if there is one.
    pub(crate) fn from_number(number: u64) -> Option<Rule> {
        ALL.into_iter()
            .find(|rule| u64::from(rule.number()) == number)
    }

    /// The rule's number, 1 to 6; they are tried in this order.
    ///
    /// ```
    /// assert_eq!(danumrikal::Rule::Counts.number(), 6);
    /// ```
    pub fn number(self) -> u8 {
        self as u8
    }

    /// The rule's name.
    ///
    /// ```
    /// assert_eq!(danumrikal::Rule::Counts.name(), "counts");
    /// ```
    pub fn name(self) -> &'static str {
        match self {
            Rule::Header => "header",
            Rule::Pages => "pages",
            Rule::FreeRuns => "free-run list",
            Rule::ClassLists => "class lists",
            Rule::InUse => "in use",
            Rule::Counts => "counts",
        }
    }
}

impl fmt::Display for Rule {
    fn fmt(&self, f: &mut fmt::Formatter<'_>) -> fmt::Result {
        write!(f, "{} ({})", self.name(), self.number())
    }
}

impl std::error::Error for Rule {}
