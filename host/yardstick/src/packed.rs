//! The allocator on the packed bytes of a pool.

mod census;
mod chunks;
mod layout;
mod runs;
mod validate;

pub use validate::broken_rule;

use crate::class::{class_of, takes_chunk, CLASSES};
use crate::{words, Refusal};
use layout::{
    get, kind, page_count, put, run, stated_pages, Pool, CLASS_PAGE, CONSTANTS, FIRST_SHIFT,
    FREE_FIRST, NONE, TAKEN_FIRST,
};
use runs::{alloc_run, release};

/// Makes the slice a pool of edition 1 with one free run, and answers its page
/// count.
pub fn format(bytes: &mut [u8]) -> Result<u32, Refusal> {
    let pages = page_count(bytes.len())?;
    let pool = Pool::split(bytes, |_| pages).ok_or(Refusal::TooShort)?;
    put(pool.header, CONSTANTS << 48 | (pages as u64) << 32 | NONE);
    let empty = [(NONE << FIRST_SHIFT).to_be_bytes(), [0; 8]];
    pool.classes.copy_from_slice(&[empty; CLASSES]);
    release(pool.header, pool.records, 0, pages);
    Ok(pages as u32)
}

/// Takes a block of at least `size` bytes and answers its offset.
pub fn alloc(bytes: &mut [u8], size: u32) -> Result<u32, Refusal> {
    if broken_rule(bytes) != 0 {
        return Err(Refusal::NotSound);
    }
    alloc_sound(bytes, size)
}

/// Gives back the block that begins at `offset`, and answers the bytes
/// released.
pub fn free(bytes: &mut [u8], offset: u32) -> Result<u32, Refusal> {
    if broken_rule(bytes) != 0 {
        return Err(Refusal::NotSound);
    }
    free_sound(bytes, offset)
}

/// [`alloc`] without the validation. On unsound records it may panic or never
/// end.
pub fn alloc_sound(bytes: &mut [u8], size: u32) -> Result<u32, Refusal> {
    if !takes_chunk(size) {
        return alloc_pages(bytes, size);
    }
    let class = class_of(size);
    let chunk = sound(bytes)?.alloc_chunk(class);
    match chunk {
        Some(offset) => Ok(offset),
        None => alloc_pages(bytes, size),
    }
}

/// Takes pages, to hand them out whole or to cut one into chunks. Apart from
/// the usual case, which is shorter for it.
#[inline(never)]
fn alloc_pages(bytes: &mut [u8], size: u32) -> Result<u32, Refusal> {
    let mut pool = sound(bytes)?;
    if takes_chunk(size) {
        pool.alloc_page(class_of(size))
    } else {
        alloc_run(pool.header, pool.records, size)
    }
}

/// [`free`] without the validation. On unsound records it may panic or never
/// end.
pub fn free_sound(bytes: &mut [u8], offset: u32) -> Result<u32, Refusal> {
    sound(bytes)?.free(offset)
}

/// Serves request words under one validation, with a word for each answer.
pub fn batch(bytes: &mut [u8], requests: &[u64], answers: &mut [u64]) -> Result<(), Refusal> {
    if answers.len() < requests.len() {
        return Err(Refusal::AnswersTooShort);
    }
    if broken_rule(bytes) != 0 {
        return Err(Refusal::NotSound);
    }
    let mut pool = sound(bytes)?;
    words::serve(&mut pool, requests, answers, Pool::alloc, Pool::free);
    Ok(())
}

/// The parts of a pool whose header is sound.
#[inline]
fn sound(bytes: &mut [u8]) -> Result<Pool<'_>, Refusal> {
    Pool::split(bytes, stated_pages).ok_or(Refusal::NotSound)
}

/// The calls on parts that are split once, for many of them.
impl Pool<'_> {
    #[inline(always)]
    fn alloc(&mut self, size: u32) -> Result<u32, Refusal> {
        if !takes_chunk(size) {
            return self.alloc_pages(size);
        }
        match self.alloc_chunk(class_of(size)) {
            Some(offset) => Ok(offset),
            None => self.alloc_pages(size),
        }
    }

    /// As [`alloc_pages`].
    #[inline(never)]
    fn alloc_pages(&mut self, size: u32) -> Result<u32, Refusal> {
        if takes_chunk(size) {
            self.alloc_page(class_of(size))
        } else {
            alloc_run(self.header, self.records, size)
        }
    }

    #[inline(always)]
    fn free(&mut self, offset: u32) -> Result<u32, Refusal> {
        let page = (offset >> 12) as usize;
        let within = offset % 4_096;
        let Some([_, links]) = self.records.get(page) else {
            return Err(Refusal::Outside);
        };
        let links = get(links);
        match kind(links) {
            CLASS_PAGE => self.free_chunk(page, links, within),
            TAKEN_FIRST if within == 0 => {
                release(self.header, self.records, page, run(links));
                Ok((run(links) as u32) << 12)
            }
            kind if kind <= FREE_FIRST => Err(Refusal::NotTaken),
            _ => Err(Refusal::NotAStart),
        }
    }
}
