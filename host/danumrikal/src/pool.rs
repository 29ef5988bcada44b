use std::fmt;
use std::ops::Range;

use crate::{ffi, free_all, Answer, Edition, Failed, Refusal, Request, Rule};

/// Bytes of a page.
pub const PAGE: usize = 4_096;
/// Pages of the largest pool.
pub const MOST_PAGES: usize = 4_096;
/// How many chunk sizes there are: 8, 16, 32 and so on up to 2,048 bytes.
pub const CLASSES: usize = 9;

/// Where the header has the page count and the free pages, 16 bits each.
const PAGE_COUNT: usize = 2;
const FREE_PAGES: usize = 4;

/// Where a block begins, in bytes from the first page. It holds in every
/// process, wherever the pool is mapped there. Any number may be tried: a free
/// tells whether a block begins there.
///
/// ```
/// use danumrikal::Offset;
///
/// assert_eq!(Offset(32).to_string(), "32");
/// ```
#[derive(Clone, Copy, Debug, PartialEq, Eq, PartialOrd, Ord, Hash)]
#[repr(transparent)]
pub struct Offset(pub u32);

impl fmt::Display for Offset {
    fn fmt(&self, f: &mut fmt::Formatter<'_>) -> fmt::Result {
        self.0.fmt(f)
    }
}

pub(crate) fn answer(word: u64) -> Result<u32, Refusal> {
    Answer::from_word(word).value()
}

/// Whether the records are sound: [`Pool::check`] for bytes that are lent to be
/// read alone, as from a read-only mapping.
///
/// # Errors
///
/// The first rule that they break.
///
/// ```
/// use danumrikal::{check, Edition, Rule};
///
/// assert_eq!(check(&vec![0; Edition::One.length(12)]), Err(Rule::Header));
/// ```
pub fn check(bytes: &[u8]) -> Result<(), Rule> {
    match ffi::validate(bytes) {
        0 => Ok(()),
        number => Err(Rule::from_number(number).expect("a rule's number")),
    }
}

/// The most chunks of each class that were in use at once since format or
/// [`convert`](crate::convert), by rising chunk size. `None` where the bytes
/// keep none: not of edition 2, or too short for its class records.
///
/// They are read as they stand: whether they are sound, [`check`] says.
///
/// ```
/// use danumrikal::{peaks, Edition, Pool};
///
/// let mut bytes = vec![0; Edition::Two.length(12)];
/// let mut pool = Pool::new(&mut bytes);
/// pool.format(Edition::Two)?;
/// let block = pool.alloc(8)?;
/// pool.alloc(8)?;
/// pool.free(block)?;
/// assert_eq!(peaks(&bytes), Some([2, 0, 0, 0, 0, 0, 0, 0, 0]));
///
/// Pool::new(&mut bytes).format(Edition::One)?;
/// assert_eq!(peaks(&bytes), None);
/// # Ok::<(), danumrikal::Refusal>(())
/// ```
pub fn peaks(bytes: &[u8]) -> Option<[u32; CLASSES]> {
    let edition = Edition::of(bytes).filter(|edition| *edition == Edition::Two)?;
    edition.pages(bytes.len())?;
    let mut peaks = [0; CLASSES];
    for (class, peak) in peaks.iter_mut().enumerate() {
        let third = bytes[edition.class_record_at(class)..]
            .chunks_exact(8)
            .nth(2)?;
        // The top 24 bits.
        *peak = u32::from_be_bytes([0, third[0], third[1], third[2]]);
    }
    Some(peaks)
}

/// Pages less free pages: [`Pool::pages_in_use`] for bytes that are lent to be
/// read alone.
///
/// # Errors
///
/// [`Refusal::NotSound`]: the records break a rule, so that the header may say
/// anything.
pub fn pages_in_use(bytes: &[u8]) -> Result<u32, Refusal> {
    check(bytes).map_err(|_| Refusal::NotSound)?;
    let field = |at| u32::from(u16::from_be_bytes([bytes[at], bytes[at + 1]]));
    Ok(field(PAGE_COUNT) - field(FREE_PAGES))
}

/// A pool in lent bytes, whatever they hold: nothing has to be checked first.
///
/// It is the bytes and nothing else, so it can be made anew whenever they are
/// lent, as each time a lock is held.
///
/// ```
/// use danumrikal::{Edition, Offset, Pool};
///
/// let mut bytes = vec![0; Edition::One.length(12)];
/// Pool::new(&mut bytes).format(Edition::One)?;
/// let block = Pool::new(&mut bytes).alloc(30)?;
/// assert_eq!(block, Offset(32));
/// Pool::new(&mut bytes).free(block)?;
/// # Ok::<(), danumrikal::Refusal>(())
/// ```
pub struct Pool<'a> {
    bytes: &'a mut [u8],
}

impl fmt::Debug for Pool<'_> {
    fn fmt(&self, f: &mut fmt::Formatter<'_>) -> fmt::Result {
        write!(f, "Pool({} bytes)", self.bytes.len())
    }
}

impl<'a> Pool<'a> {
    /// The pool in these bytes, which stay as they are: [`Pool::format`] makes
    /// a new one of them.
    pub fn new(bytes: &'a mut [u8]) -> Pool<'a> {
        Pool { bytes }
    }

    /// Makes a pool of an edition with one free run, and answers its page count,
    /// 1 to [`MOST_PAGES`]. Bytes of pages and the tail stay as they are.
    ///
    /// # Errors
    ///
    /// By the length alone; nothing changes:
    ///
    /// - [`Refusal::TooShort`]: shorter than `edition.length(1)`, which is 4,264
    ///   bytes in edition 1 and 4,336 in edition 2
    /// - [`Refusal::TooLong`]: from `edition.length(4_097)` on, which is
    ///   16,847,016 bytes in edition 1 and 16,847,088 in edition 2
    ///
    /// ```
    /// use danumrikal::{Edition, Pool, Refusal};
    ///
    /// let edition = Edition::Two;
    /// let format = |len| Pool::new(&mut vec![0; len]).format(edition);
    /// assert_eq!(format(edition.length(1)), Ok(1));
    /// assert_eq!(format(edition.length(1) - 1), Err(Refusal::TooShort));
    /// assert_eq!(format(edition.length(4_097)), Err(Refusal::TooLong));
    /// ```
    pub fn format(&mut self, edition: Edition) -> Result<u32, Refusal> {
        answer(ffi::format(self.bytes, edition.number()))
    }

    /// The edition that the first byte tells, if it is one's.
    pub fn edition(&self) -> Option<Edition> {
        Edition::of(self.bytes)
    }

    /// Whether the records are sound. [`Pool::alloc`] and [`Pool::free`] see to
    /// that themselves.
    ///
    /// # Errors
    ///
    /// The first rule that they break.
    ///
    /// ```
    /// use danumrikal::{Edition, Pool, Rule};
    ///
    /// let mut bytes = vec![0; Edition::One.length(1)];
    /// assert_eq!(Pool::new(&mut bytes).check(), Err(Rule::Header)); // no pool yet
    /// Pool::new(&mut bytes).format(Edition::One)?;
    /// assert_eq!(Pool::new(&mut bytes).check(), Ok(()));
    /// bytes[5] = 0; // its count of free pages
    /// assert_eq!(Pool::new(&mut bytes).check(), Err(Rule::Counts));
    /// # Ok::<(), danumrikal::Refusal>(())
    /// ```
    pub fn check(&self) -> Result<(), Rule> {
        check(self.bytes)
    }

    /// The most chunks of each class that were in use at once: see [`peaks`].
    pub fn peaks(&self) -> Option<[u32; CLASSES]> {
        peaks(self.bytes)
    }

    /// Pages that hold a block, or a chunk of one: the pages less the free ones,
    /// as the header says them.
    ///
    /// # Errors
    ///
    /// [`Refusal::NotSound`]: the records break a rule, so that the header may
    /// say anything.
    ///
    /// ```
    /// use danumrikal::{Edition, Pool, Refusal};
    ///
    /// let mut bytes = vec![0; Edition::One.length(12)];
    /// let mut pool = Pool::new(&mut bytes);
    /// assert_eq!(pool.pages_in_use(), Err(Refusal::NotSound)); // no pool yet
    /// pool.format(Edition::One)?;
    /// pool.alloc(30)?;
    /// pool.alloc(5_000)?;
    /// assert_eq!(pool.pages_in_use(), Ok(3));
    /// # Ok::<(), Refusal>(())
    /// ```
    pub fn pages_in_use(&self) -> Result<u32, Refusal> {
        pages_in_use(self.bytes)
    }

    /// Takes a block of at least `size` bytes.
    ///
    /// Sizes up to 2,048 take a chunk of the smallest class that holds them,
    /// larger ones whole pages.
    ///
    /// # Errors
    ///
    /// The first of these; nothing changes, but that a chunk refused for room is
    /// counted in its class's asks and failures:
    ///
    /// - [`Refusal::NotSound`]: the records break a rule
    /// - [`Refusal::NothingAsked`]: the size is 0
    /// - [`Refusal::NoRoom`]: no free chunk and no free page, or no run long
    ///   enough
    ///
    /// ```
    /// use danumrikal::{Edition, Offset, Pool, Refusal};
    ///
    /// let mut bytes = vec![0; Edition::One.length(1)];
    /// let mut pool = Pool::new(&mut bytes);
    /// assert_eq!(pool.alloc(1), Err(Refusal::NotSound)); // no pool yet
    /// pool.format(Edition::One)?;
    /// assert_eq!(pool.alloc(2_048), Ok(Offset(0)));
    /// assert_eq!(pool.alloc(1_500), Ok(Offset(2_048)));
    /// assert_eq!(pool.alloc(1), Err(Refusal::NoRoom));
    /// assert_eq!(pool.alloc(0), Err(Refusal::NothingAsked));
    /// # Ok::<(), Refusal>(())
    /// ```
    pub fn alloc(&mut self, size: u32) -> Result<Offset, Refusal> {
        answer(ffi::alloc(self.bytes, size)).map(Offset)
    }

    /// Gives back the block that begins at `offset`, and answers the bytes
    /// released: its chunk's size, or [`PAGE`] for each page of a run.
    ///
    /// # Errors
    ///
    /// The first of these; nothing changes:
    ///
    /// - [`Refusal::NotSound`]: the records break a rule
    /// - [`Refusal::Outside`]: the offset lies past the pages
    /// - [`Refusal::NotTaken`]: the page is free
    /// - [`Refusal::NotAStart`]: no block can begin there: inside a run, off a
    ///   chunk's start, in a map
    /// - [`Refusal::NotTaken`]: the chunk is free
    ///
    /// So a block freed twice is refused, as long as its place was not handed
    /// out again.
    ///
    /// ```
    /// use danumrikal::{Edition, Offset, Pool, Refusal, PAGE};
    ///
    /// let mut bytes = vec![0; Edition::One.length(1)];
    /// let mut pool = Pool::new(&mut bytes);
    /// pool.format(Edition::One)?;
    /// let block = pool.alloc(64)?;
    /// assert_eq!(pool.free(Offset(block.0 + 1)), Err(Refusal::NotAStart));
    /// assert_eq!(pool.free(block), Ok(64));
    /// assert_eq!(pool.free(block), Err(Refusal::NotTaken));
    /// assert_eq!(pool.free(Offset(PAGE as u32)), Err(Refusal::Outside));
    /// # Ok::<(), Refusal>(())
    /// ```
    pub fn free(&mut self, offset: Offset) -> Result<u32, Refusal> {
        answer(ffi::free(self.bytes, offset.0))
    }

    /// Gives back the blocks at all offsets of a list, in order, and answers how
    /// many: what a program that died held, say. Where a [`Pool::free`] of one of
    /// them would be refused after those before it, none is given back.
    ///
    /// # Errors
    ///
    /// The place of the first that would be refused, and how; an unsound pool is
    /// refused with [`Refusal::NotSound`] at place 0, also for an empty list.
    /// Nothing changes.
    ///
    /// ```
    /// use danumrikal::{Edition, Failed, Offset, Pool, Refusal};
    ///
    /// let mut bytes = vec![0; Edition::One.length(12)];
    /// let mut pool = Pool::new(&mut bytes);
    /// pool.format(Edition::One)?;
    /// let (a, b) = (pool.alloc(30)?, pool.alloc(10_000)?);
    /// let twice = Failed { place: 2, refusal: Refusal::NotTaken };
    /// assert_eq!(pool.free_all(&[a, b, a]), Err(twice));
    /// assert_eq!(pool.free_all(&[a, b]), Ok(2));
    /// assert_eq!(pool.free_all(&[]), Ok(0));
    /// # Ok::<(), Refusal>(())
    /// ```
    pub fn free_all(&mut self, offsets: &[Offset]) -> Result<u32, Failed> {
        free_all::answer(ffi::free_all(self.bytes, offsets))
    }

    /// Makes many calls under one validation, each on the pool that the one
    /// before left: every answer is the one that [`Pool::alloc`] or
    /// [`Pool::free`] would give. A request with stray bits is refused with
    /// [`Refusal::Unreadable`] and the next is served. Answers beyond the
    /// requests stay.
    ///
    /// # Errors
    ///
    /// The first of these; pool and answers stay as they are:
    ///
    /// - [`Refusal::AnswersTooShort`]: fewer answers than requests
    /// - [`Refusal::NotSound`]: the records break a rule, also for no requests
    ///
    /// ```
    /// use danumrikal::{Answer, Edition, Offset, Pool, Refusal, Request};
    ///
    /// let mut bytes = vec![0; Edition::One.length(12)];
    /// let mut pool = Pool::new(&mut bytes);
    /// pool.format(Edition::One)?;
    /// let requests = [Request::alloc(30), Request::alloc(64), Request::free(Offset(7))];
    /// let mut answers = [Answer::default(); 3];
    /// pool.batch(&requests, &mut answers)?;
    /// assert_eq!(answers[0].block(), Ok(Offset(32)));
    /// assert_eq!(answers[1].block(), Ok(Offset(4_096)));
    /// assert_eq!(answers[2].value(), Err(Refusal::NotAStart));
    ///
    /// let refused = pool.batch(&requests, &mut answers[..2]);
    /// assert_eq!(refused, Err(Refusal::AnswersTooShort));
    /// # Ok::<(), Refusal>(())
    /// ```
    pub fn batch(&mut self, requests: &[Request], answers: &mut [Answer]) -> Result<(), Refusal> {
        answer(ffi::batch(self.bytes, requests, answers)).map(|_| ())
    }

    /// The bytes of a block, for an offset and a size that [`Pool::alloc`]
    /// granted: `size` bytes from `offset` on, whatever lies there. `None` where
    /// they reach past the pages, or no edition tells where these lie.
    ///
    /// The first has an address that is a multiple of 8 where that of the
    /// pool's bytes is, and in general of no more.
    pub fn block(&self, offset: Offset, size: u32) -> Option<&[u8]> {
        let range = self.range(offset, size)?;
        Some(&self.bytes[range])
    }

    /// The bytes of a block, to write: see [`Pool::block`]. An offset or a size
    /// that was not granted may lead to another block's bytes or to a map.
    ///
    /// ```
    /// use danumrikal::{Edition, Offset, Pool};
    ///
    /// let mut bytes = vec![0; Edition::One.length(1)];
    /// let mut pool = Pool::new(&mut bytes);
    /// pool.format(Edition::One)?;
    /// let block = pool.alloc(5)?;
    /// pool.block_mut(block, 5).expect("inside the pages").copy_from_slice(b"Vega.");
    /// assert_eq!(pool.block(block, 5), Some(&b"Vega."[..]));
    /// assert_eq!(pool.block_mut(Offset(4_000), 97), None);
    /// # Ok::<(), danumrikal::Refusal>(())
    /// ```
    pub fn block_mut(&mut self, offset: Offset, size: u32) -> Option<&mut [u8]> {
        let range = self.range(offset, size)?;
        Some(&mut self.bytes[range])
    }

    fn range(&self, offset: Offset, size: u32) -> Option<Range<usize>> {
        range(self.bytes, offset, size)
    }
}

/// Where a block's bytes lie in the slice of a pool.
pub(crate) fn range(pool: &[u8], offset: Offset, size: u32) -> Option<Range<usize>> {
    let (pages, first) = Edition::of(pool)?.pages(pool.len())?;
    let start = first.checked_add(offset.0 as usize)?;
    let end = start.checked_add(size as usize)?;
    (end <= first + PAGE * pages).then_some(start..end)
}
