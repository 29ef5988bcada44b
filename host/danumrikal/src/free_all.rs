use std::error::Error;
use std::fmt;

use crate::{Answer, Refusal};

/// The first offset of a list that could not be freed: its place in the list,
/// from 0, and why. See [`Pool::free_all`].
///
/// ```
/// use danumrikal::{Failed, Refusal};
///
/// let failed = Failed { place: 3, refusal: Refusal::NotTaken };
/// assert_eq!(failed.to_string(), format!("place 3: {}", Refusal::NotTaken));
/// ```
///
/// [`Pool::free_all`]: crate::Pool::free_all
#[derive(Clone, Copy, Debug, PartialEq, Eq, Hash)]
pub struct Failed {
    /// Where it stands in the list; all before it could have been freed.
    pub place: u32,
    /// How a free of it would be refused after those.
    pub refusal: Refusal,
}

impl fmt::Display for Failed {
    fn fmt(&self, f: &mut fmt::Formatter<'_>) -> fmt::Result {
        write!(f, "place {}: {}", self.place, self.refusal)
    }
}

impl Error for Failed {}

pub(crate) fn answer(word: u64) -> Result<u32, Failed> {
    let place = word as u32;
    Answer::from_word(word)
        .value()
        .map_err(|refusal| Failed { place, refusal })
}
