//! The load gauge, by exact fractions.
//!
//! A float from 0 to 4,096 is a whole number of [`Exact`] parts, and so are its
//! half, a count's half and their sum. Rounding to a float is written out, so
//! nothing here computes with floats.

use crate::refusal::Refusal;

/// Samples of a round.
pub const ROUND: u32 = 40;
/// The largest count, load and level.
pub const MOST: u32 = 4_096;

/// A load gauge with a trip level.
#[derive(Clone, Copy, Debug)]
pub struct Gauge {
    /// The smoothed count.
    pub load: f64,
    /// The level above which the panel trips.
    pub level: f64,
    /// Samples of the round so far.
    pub samples: u32,
}

impl Gauge {
    /// A gauge at load 0.
    pub fn start(level: f64) -> Result<Gauge, Refusal> {
        Exact::of_float(level).ok_or(Refusal::OutOfRange)?;
        Ok(Gauge {
            load: 0.0,
            level,
            samples: 0,
        })
    }

    /// The gauge after a sample: half the old load plus half the new count.
    pub fn sample(self, count: u32) -> Result<Gauge, Refusal> {
        let (old, _) = self.exact()?;
        if count > MOST {
            return Err(Refusal::OutOfRange);
        }
        let (old, before) = match self.samples {
            ROUND => (Exact::ZERO, 0),
            samples => (old, samples),
        };
        let half = Exact::of_float(old.half().nearest()).expect("no more than the load");
        Ok(Gauge {
            load: half.plus(Exact::whole(u64::from(count)).half()).nearest(),
            level: self.level,
            samples: before + 1,
        })
    }

    /// Whether the load is above the level.
    pub fn trips(self) -> Result<bool, Refusal> {
        let (load, level) = self.exact()?;
        Ok(load > level)
    }

    /// Load and level, of a gauge that no call refuses.
    fn exact(self) -> Result<(Exact, Exact), Refusal> {
        if self.samples > ROUND {
            return Err(Refusal::OutOfRange);
        }
        let load = Exact::of_float(self.load).ok_or(Refusal::OutOfRange)?;
        let level = Exact::of_float(self.level).ok_or(Refusal::OutOfRange)?;
        Ok((load, level))
    }
}

/// What a gauge that began at 0 must show after samples of these counts, all in
/// range: the samples of the last round, and the sum of each of its counts times
/// 2 to the power of the samples before it, which is load times 2 to the power
/// of all.
pub fn reading(counts: &[u32]) -> (u32, u64) {
    let round = counts.chunks(ROUND as usize).last().unwrap_or_default();
    let weighed = |(before, &count): (usize, &u32)| u64::from(count) << before;
    let sum = round.iter().enumerate().map(weighed).sum();
    (round.len() as u32, sum)
}

/// Whether a load times 2 to the power of `samples` is `sum`.
pub fn reads(load: f64, samples: u32, sum: u64) -> bool {
    let times = samples as usize;
    Exact::of_float(load).is_some_and(|load| load.doubled(times) == Exact::whole(sum))
}

/// A part is 2 to the power of minus so many: half of the smallest float above 0.
const PARTS: usize = 1_075;
/// Words of 64 bits: room for 2 to the power of 76 wholes.
const WORDS: usize = 18;

/// A number from 0 on, as a whole number of parts; the highest word first.
#[derive(Clone, Copy, Debug, PartialEq, Eq, PartialOrd, Ord)]
pub struct Exact([u64; WORDS]);

impl Exact {
    /// Nothing.
    pub const ZERO: Exact = Exact([0; WORDS]);

    /// A whole number.
    pub fn whole(number: u64) -> Exact {
        Exact::parts(number).doubled(PARTS)
    }

    /// A float that is a number from 0 to 4,096; -0 counts as 0.
    pub fn of_float(float: f64) -> Option<Exact> {
        let bits = float.to_bits();
        let (negative, size) = (bits >> 63 == 1, bits << 1 >> 1);
        let (field, digits) = ((size >> 52) as usize, size & ((1 << 52) - 1));
        if negative && size > 0 || field > 1_035 {
            return None; // below 0; 8,192 or more, or no number
        }
        let exact = match field {
            0 => Exact::parts(digits).doubled(1),
            _ => Exact::parts(1 << 52 | digits).doubled(field),
        };
        (exact <= Exact::whole(u64::from(MOST))).then_some(exact)
    }

    /// Half as much, of an even number of parts.
    pub fn half(self) -> Exact {
        assert!(!self.has(0), "an even number of parts");
        self.cut(1)
    }

    /// The sum.
    pub fn plus(self, other: Exact) -> Exact {
        let mut sum = self.0;
        let mut carry = false;
        for (word, more) in sum.iter_mut().zip(other.0).rev() {
            let (once, first) = word.overflowing_add(more);
            let (twice, second) = once.overflowing_add(u64::from(carry));
            (*word, carry) = (twice, first || second);
        }
        Exact(sum)
    }

    /// The nearest float; of two, the one whose last digit is 0.
    pub fn nearest(self) -> f64 {
        let digits = self.bits().next_back().map_or(0, |highest| highest + 1);
        // a float has 53 digits, and none of them below two parts
        let dropped = digits.saturating_sub(53).max(1);
        let kept = self.cut(dropped).0[WORDS - 1];
        let more = self.bits().any(|bit| bit + 1 < dropped);
        let up = self.has(dropped - 1) && (more || kept % 2 == 1);
        // the exponent's field is what was dropped; the leading digit adds one to it
        f64::from_bits(((dropped as u64 - 1) << 52) + kept + u64::from(up))
    }

    fn parts(number: u64) -> Exact {
        let mut words = [0; WORDS];
        words[WORDS - 1] = number;
        Exact(words)
    }

    /// Twice as much, so many times.
    fn doubled(self, times: usize) -> Exact {
        Exact::of_bits(self.bits().map(|bit| bit + times))
    }

    /// Halved so many times, fractions of a part dropped.
    fn cut(self, times: usize) -> Exact {
        Exact::of_bits(self.bits().filter_map(|bit| bit.checked_sub(times)))
    }

    fn has(&self, bit: usize) -> bool {
        self.0[WORDS - 1 - bit / 64] >> (bit % 64) & 1 == 1
    }

    /// The bits that are set, the lowest first.
    fn bits(&self) -> impl DoubleEndedIterator<Item = usize> + '_ {
        (0..64 * WORDS).filter(|&bit| self.has(bit))
    }

    fn of_bits(bits: impl Iterator<Item = usize>) -> Exact {
        let mut words = [0; WORDS];
        for bit in bits {
            words[WORDS - 1 - bit / 64] |= 1 << (bit % 64);
        }
        Exact(words)
    }
}
