//! The exported functions. The proofs cover them for every pointer and length
//! that make a slice, which is what the safe functions here pass.

use crate::{Answer, Gauge, Offset, Request};

/// What a call on a gauge answers, and the gauge afterwards.
#[repr(C)]
pub struct GaugeReply {
    pub answer: u64,
    pub gauge: Gauge,
}

extern "C" {
    fn dnk_format(pool: *mut u8, len: usize, edition: u8) -> u64;
    fn dnk_validate(pool: *const u8, len: usize) -> u64;
    fn dnk_alloc(pool: *mut u8, len: usize, size: u32) -> u64;
    fn dnk_free(pool: *mut u8, len: usize, offset: u32) -> u64;
    fn dnk_free_all(pool: *mut u8, len: usize, offsets: *const Offset, count: usize) -> u64;
    fn dnk_batch(
        pool: *mut u8,
        len: usize,
        requests: *const Request,
        request_count: usize,
        answers: *mut Answer,
        answer_count: usize,
    ) -> u64;
    fn dnk_convert(source: *const u8, source_len: usize, target: *mut u8, target_len: usize)
        -> u64;
    fn dnk_check_mended(
        damaged: *const u8,
        damaged_len: usize,
        mended: *const u8,
        mended_len: usize,
    ) -> u64;
    fn dnk_mend(damaged: *const u8, damaged_len: usize, target: *mut u8, target_len: usize) -> u64;
    fn dnk_gauge_start(level: f64) -> GaugeReply;
    fn dnk_gauge_sample(gauge: Gauge, count: u32) -> GaugeReply;
    fn dnk_gauge_trips(gauge: Gauge) -> u64;
    fn dnk_keeper_put(
        pool: *mut u8,
        len: usize,
        directory: *mut u64,
        places: usize,
        key: u16,
        record: *const u8,
        record_len: usize,
    ) -> u64;
    fn dnk_keeper_find(
        pool: *const u8,
        len: usize,
        directory: *const u64,
        places: usize,
        key: u16,
    ) -> u64;
    fn dnk_keeper_remove(
        pool: *mut u8,
        len: usize,
        directory: *mut u64,
        places: usize,
        key: u16,
    ) -> u64;
}

pub fn format(pool: &mut [u8], edition: u8) -> u64 {
    // SAFETY: pointer and length are those of a slice that is lent for the call.
    unsafe { dnk_format(pool.as_mut_ptr(), pool.len(), edition) }
}

pub fn validate(pool: &[u8]) -> u64 {
    // SAFETY: pointer and length are those of a slice that is lent for the call.
    unsafe { dnk_validate(pool.as_ptr(), pool.len()) }
}

pub fn alloc(pool: &mut [u8], size: u32) -> u64 {
    // SAFETY: pointer and length are those of a slice that is lent for the call.
    unsafe { dnk_alloc(pool.as_mut_ptr(), pool.len(), size) }
}

pub fn free(pool: &mut [u8], offset: u32) -> u64 {
    // SAFETY: pointer and length are those of a slice that is lent for the call.
    unsafe { dnk_free(pool.as_mut_ptr(), pool.len(), offset) }
}

pub fn free_all(pool: &mut [u8], offsets: &[Offset]) -> u64 {
    // SAFETY: pointers and lengths are those of slices that are lent for the
    // call and share no byte; an offset is a `u32`.
    unsafe {
        dnk_free_all(
            pool.as_mut_ptr(),
            pool.len(),
            offsets.as_ptr(),
            offsets.len(),
        )
    }
}

pub fn batch(pool: &mut [u8], requests: &[Request], answers: &mut [Answer]) -> u64 {
    // SAFETY: pointers and lengths are those of slices that are lent for the
    // call, of which those to write share no byte with another; a request and
    // an answer are a `u64` each.
    unsafe {
        dnk_batch(
            pool.as_mut_ptr(),
            pool.len(),
            requests.as_ptr(),
            requests.len(),
            answers.as_mut_ptr(),
            answers.len(),
        )
    }
}

pub fn convert(source: &[u8], target: &mut [u8]) -> u64 {
    // SAFETY: pointers and lengths are those of slices that are lent for the
    // call and share no byte.
    unsafe {
        dnk_convert(
            source.as_ptr(),
            source.len(),
            target.as_mut_ptr(),
            target.len(),
        )
    }
}

pub fn check_mended(damaged: &[u8], mended: &[u8]) -> u64 {
    // SAFETY: pointers and lengths are those of slices that are lent to be read.
    unsafe {
        dnk_check_mended(
            damaged.as_ptr(),
            damaged.len(),
            mended.as_ptr(),
            mended.len(),
        )
    }
}

pub fn mend(damaged: &[u8], target: &mut [u8]) -> u64 {
    // SAFETY: pointers and lengths are those of slices that are lent for the
    // call and share no byte.
    unsafe {
        dnk_mend(
            damaged.as_ptr(),
            damaged.len(),
            target.as_mut_ptr(),
            target.len(),
        )
    }
}

pub fn gauge_start(level: f64) -> GaugeReply {
    // SAFETY: a number by value; every one is taken.
    unsafe { dnk_gauge_start(level) }
}

pub fn gauge_sample(gauge: Gauge, count: u32) -> GaugeReply {
    // SAFETY: numbers by value; all are taken.
    unsafe { dnk_gauge_sample(gauge, count) }
}

pub fn gauge_trips(gauge: Gauge) -> u64 {
    // SAFETY: numbers by value; all are taken.
    unsafe { dnk_gauge_trips(gauge) }
}

pub fn keeper_put(pool: &mut [u8], directory: &mut [u64], key: u16, record: &[u8]) -> u64 {
    // SAFETY: pointers and lengths are those of slices that are lent for the
    // call, of which those to write share no byte with another.
    unsafe {
        dnk_keeper_put(
            pool.as_mut_ptr(),
            pool.len(),
            directory.as_mut_ptr(),
            directory.len(),
            key,
            record.as_ptr(),
            record.len(),
        )
    }
}

pub fn keeper_find(pool: &[u8], directory: &[u64], key: u16) -> u64 {
    // SAFETY: pointers and lengths are those of slices that are lent to be read.
    unsafe {
        dnk_keeper_find(
            pool.as_ptr(),
            pool.len(),
            directory.as_ptr(),
            directory.len(),
            key,
        )
    }
}

pub fn keeper_remove(pool: &mut [u8], directory: &mut [u64], key: u16) -> u64 {
    // SAFETY: pointers and lengths are those of slices that are lent for the
    // call and share no byte.
    unsafe {
        dnk_keeper_remove(
            pool.as_mut_ptr(),
            pool.len(),
            directory.as_mut_ptr(),
            directory.len(),
            key,
        )
    }
}
