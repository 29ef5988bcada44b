use crate::pool::answer;
use crate::{ffi, Refusal};

/// Makes the target a sound copy of a pool whose links or counts were lost, and
/// answers the page count.
///
/// What is in use is read from the pages' kinds, classes, run lengths and maps,
/// so blocks keep their offsets and bytes. Lists come in rising page order,
/// counts are made afresh, asks and failures are kept, and a peak is the larger
/// of what it was and the chunks in use. The target may hold anything before;
/// the damaged bytes stay. [`check_mended`] accepts every copy made so.
///
/// # Errors
///
/// The first of these; the target stays as it is:
///
/// - [`Refusal::WrongLength`]: the target has another length
/// - [`Refusal::BeyondMending`]: edition, shifts, page count, kinds, classes, run
///   lengths or maps are damaged too
///
/// ```
/// use danumrikal::{check, mend, Edition, Pool, Refusal, Rule};
///
/// let mut bytes = vec![0; Edition::One.length(12)];
/// let mut pool = Pool::new(&mut bytes);
/// pool.format(Edition::One)?;
/// let block = pool.alloc(30)?;
/// bytes[7] = 9; // the first free run begins elsewhere
/// assert_eq!(check(&bytes), Err(Rule::FreeRuns));
///
/// let mut copy = vec![0; bytes.len()];
/// assert_eq!(mend(&bytes, &mut copy), Ok(12));
/// assert_eq!(Pool::new(&mut copy).free(block), Ok(32));
///
/// bytes[3] = 11; // the page count
/// assert_eq!(mend(&bytes, &mut copy), Err(Refusal::BeyondMending));
/// # Ok::<(), Refusal>(())
/// ```
pub fn mend(damaged: &[u8], target: &mut [u8]) -> Result<u32, Refusal> {
    answer(ffi::mend(damaged, target))
}

/// Whether a copy of a damaged pool, whoever mended it, is sound and holds what
/// the damaged one shows: its live blocks, as kinds, classes, run lengths and
/// maps tell them, and every byte of its pages and behind them.
///
/// Links, counts, asks, failures and peaks of the damaged one are not looked at,
/// and lists of the copy may have any order.
///
/// # Errors
///
/// The first of these:
///
/// - [`Refusal::WrongLength`]: lengths or edition bytes differ
/// - [`Refusal::BeyondMending`]: as [`mend`] would say of the damaged one
/// - [`Refusal::NotSound`]: the records of the copy break a rule
/// - [`Refusal::OtherBlocks`]: other live blocks, or another byte in the pages or
///   behind them
///
/// ```
/// use danumrikal::{check_mended, mend, Edition, Pool, Refusal};
///
/// let mut bytes = vec![0; Edition::One.length(12)];
/// let mut pool = Pool::new(&mut bytes);
/// pool.format(Edition::One)?;
/// pool.alloc(30)?;
/// bytes[4..8].fill(0xff); // free pages, and the first free run
/// assert_eq!(check_mended(&bytes, &bytes), Err(Refusal::NotSound));
///
/// let mut copy = vec![0; bytes.len()];
/// mend(&bytes, &mut copy)?;
/// assert_eq!(check_mended(&bytes, &copy), Ok(()));
/// Pool::new(&mut copy).alloc(30)?;
/// assert_eq!(check_mended(&bytes, &copy), Err(Refusal::OtherBlocks));
/// # Ok::<(), Refusal>(())
/// ```
pub fn check_mended(damaged: &[u8], mended: &[u8]) -> Result<(), Refusal> {
    answer(ffi::check_mended(damaged, mended)).map(|_| ())
}
