use std::fmt;

use crate::{Offset, Refusal};

/// Set in a request that frees.
const FREE: u64 = 1 << 63;

/// A call in a batch, one word: top bit 0 to alloc and 1 to free, 31 zero bits,
/// the size or the offset in the low half.
///
/// ```
/// use danumrikal::{Offset, Request};
///
/// assert_eq!(Request::alloc(30).to_string(), "alloc 30");
/// assert_eq!(Request::free(Offset(32)).to_string(), "free 32");
/// assert_eq!(Request::free(Offset(32)).word(), 1 << 63 | 32);
/// ```
#[derive(Clone, Copy, Debug, PartialEq, Eq, Hash)]
#[repr(transparent)]
pub struct Request(u64);

impl Request {
    /// Takes a block of at least `size` bytes, as [`Pool::alloc`] does.
    ///
    /// [`Pool::alloc`]: crate::Pool::alloc
    pub const fn alloc(size: u32) -> Request {
        Request(size as u64)
    }

    /// Gives back the block that begins at `offset`, as [`Pool::free`] does.
    ///
    /// [`Pool::free`]: crate::Pool::free
    pub const fn free(offset: Offset) -> Request {
        Request(FREE | offset.0 as u64)
    }

    /// The request of a word, as another program wrote it. A word with stray
    /// bits, neither an alloc nor a free, is refused when it is served.
    ///
    /// ```
    /// use danumrikal::{Answer, Edition, Pool, Refusal, Request};
    ///
    /// let mut bytes = vec![0; Edition::One.length(1)];
    /// let mut pool = Pool::new(&mut bytes);
    /// pool.format(Edition::One)?;
    /// let stray = Request::from_word(1 << 40);
    /// assert_eq!(stray.to_string(), "stray 0x10000000000");
    /// let mut answers = [Answer::default()];
    /// pool.batch(&[stray], &mut answers)?;
    /// assert_eq!(answers[0].value(), Err(Refusal::Unreadable));
    /// # Ok::<(), Refusal>(())
    /// ```
    pub const fn from_word(word: u64) -> Request {
        Request(word)
    }

    /// The request as one word.
    pub const fn word(self) -> u64 {
        self.0
    }
}

impl fmt::Display for Request {
    fn fmt(&self, f: &mut fmt::Formatter<'_>) -> fmt::Result {
        let low = self.0 as u32;
        if *self == Request::alloc(low) {
            write!(f, "alloc {low}")
        } else if *self == Request::free(Offset(low)) {
            write!(f, "free {low}")
        } else {
            write!(f, "stray {:#x}", self.0)
        }
    }
}

/// The answer to a call, one word: the refusal's number in the top byte, the
/// value in the low half.
#[derive(Clone, Copy, Debug, Default, PartialEq, Eq, Hash)]
#[repr(transparent)]
pub struct Answer(u64);

impl Answer {
    /// What was granted: the offset of the block that was taken, or the bytes of
    /// the one that was given back.
    ///
    /// # Errors
    ///
    /// Why the call was refused.
    pub fn value(self) -> Result<u32, Refusal> {
        match (self.0 >> 56) as u8 {
            0 => Ok(self.0 as u32),
            number => Err(Refusal::from_number(number).expect("a number of the table")),
        }
    }

    /// The block that was taken, for the answer to [`Request::alloc`].
    ///
    /// # Errors
    ///
    /// Why the call was refused.
    pub fn block(self) -> Result<Offset, Refusal> {
        self.value().map(Offset)
    }

    /// The answer of a word, as a call gave it to another program.
    ///
    /// ```
    /// use danumrikal::{Answer, Refusal};
    ///
    /// assert_eq!(Answer::from_word(32).value(), Ok(32));
    /// assert_eq!(Answer::from_word(6 << 56).value(), Err(Refusal::NotTaken));
    /// ```
    pub const fn from_word(word: u64) -> Answer {
        Answer(word)
    }

    /// The answer as one word.
    pub const fn word(self) -> u64 {
        self.0
    }
}
