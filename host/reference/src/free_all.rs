//! A list of offsets given back, all or none.

use crate::pool::free_sound;
use crate::refusal::Refusal;
use crate::validate::validate;

/// Gives back the block at each offset, in order, and answers how many; or, where
/// one of these gives would be refused, the place of the first such and its
/// refusal, and nothing changes. An unsound pool is refused at place 0.
pub fn free_all(bytes: &mut [u8], offsets: &[u32]) -> Result<u32, (u32, Refusal)> {
    if !validate(bytes) {
        return Err((0, Refusal::NotSound));
    }
    let mut copy = bytes.to_vec();
    for (place, &offset) in (0..).zip(offsets) {
        free_sound(&mut copy, offset).map_err(|refusal| (place, refusal))?;
    }
    bytes.copy_from_slice(&copy);
    Ok(u32::try_from(offsets.len()).expect("as many as live blocks at most"))
}
