use crate::pool::answer;
use crate::{ffi, Refusal};

/// Makes the target a pool of [`Edition::Two`] with all that the source, a sound
/// pool of [`Edition::One`], holds, and answers the page count.
///
/// Blocks keep their offsets and bytes, free pages their order, each class its
/// counts. The peak of a class becomes its chunks in use, and from there on is
/// the largest of these. The target may hold anything before; its tail stays.
///
/// # Errors
///
/// The first of these; the target stays as it is:
///
/// - [`Refusal::NotSound`]: the source is no sound pool of edition 1
/// - [`Refusal::WrongLength`]: the target does not hold as many pages
///
/// ```
/// use danumrikal::{convert, peaks, Edition, Pool, Refusal};
///
/// let mut old = vec![0; Edition::One.length(12)];
/// Pool::new(&mut old).format(Edition::One)?;
/// let block = Pool::new(&mut old).alloc(30)?;
///
/// let mut new = vec![0; Edition::Two.length(12)];
/// assert_eq!(convert(&old, &mut new), Ok(12));
/// assert_eq!(peaks(&new), Some([0, 0, 1, 0, 0, 0, 0, 0, 0]));
/// assert_eq!(Pool::new(&mut new).free(block), Ok(32));
///
/// let mut shorter = vec![0; Edition::Two.length(11)];
/// assert_eq!(convert(&old, &mut shorter), Err(Refusal::WrongLength));
/// assert_eq!(convert(&new, &mut shorter), Err(Refusal::NotSound)); // edition 2 already
/// # Ok::<(), Refusal>(())
/// ```
///
/// [`Edition::One`]: crate::Edition::One
/// [`Edition::Two`]: crate::Edition::Two
pub fn convert(source: &[u8], target: &mut [u8]) -> Result<u32, Refusal> {
    answer(ffi::convert(source, target))
}
