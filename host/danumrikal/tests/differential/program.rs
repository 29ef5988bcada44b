use danumrikal::{check, check_mended, mend, Edition, Offset, Pool};

/// A program that keeps pools. Refusals are told by their numbers.
#[derive(Clone, Copy)]
pub struct Program {
    pub name: &'static str,
    /// Told the edition's number.
    pub format: fn(&mut [u8], u8) -> Result<u32, u8>,
    pub broken_rule: fn(&[u8]) -> u8,
    pub alloc: fn(&mut [u8], u32) -> Result<u32, u8>,
    pub free: fn(&mut [u8], u32) -> Result<u32, u8>,
    /// Makes the second slice a mended copy of the first.
    pub mend: fn(&[u8], &mut [u8]) -> Result<u32, u8>,
    /// The number that refuses the second slice as a copy of the first, or 0.
    pub check_mended: fn(&[u8], &[u8]) -> u8,
}

pub const PROVED: Program = Program {
    name: "proved",
    format: |pool, edition| {
        let edition = Edition::from_number(edition).expect("an edition");
        let answer = Pool::new(pool).format(edition);
        answer.map_err(|refusal| refusal.number())
    },
    broken_rule: |pool| check(pool).err().map_or(0, |rule| rule.number()),
    alloc: |pool, size| match Pool::new(pool).alloc(size) {
        Ok(Offset(offset)) => Ok(offset),
        Err(refusal) => Err(refusal.number()),
    },
    free: |pool, offset| {
        let answer = Pool::new(pool).free(Offset(offset));
        answer.map_err(|refusal| refusal.number())
    },
    mend: |damaged, target| mend(damaged, target).map_err(|refusal| refusal.number()),
    check_mended: |damaged, mended| {
        let answer = check_mended(damaged, mended);
        answer.err().map_or(0, |refusal| refusal.number())
    },
};

pub const SECOND: Program = Program {
    name: "second",
    format: |pool, edition| {
        let answer = reference::format(pool, edition);
        answer.map_err(|refusal| refusal.number())
    },
    broken_rule: reference::broken_rule,
    alloc: |pool, size| reference::alloc(pool, size).map_err(|refusal| refusal.number()),
    free: |pool, offset| reference::free(pool, offset).map_err(|refusal| refusal.number()),
    mend: |damaged, target| {
        let answer = reference::mend(damaged, target);
        answer.map_err(|refusal| refusal.number())
    },
    check_mended: |damaged, mended| {
        let answer = reference::check_mended(damaged, mended);
        answer.err().map_or(0, |refusal| refusal.number())
    },
};
