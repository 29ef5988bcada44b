//! The gauge against the second program, bit by bit, and its reading against
//! whole numbers.

use danumrikal::{pages_in_use, Edition, Gauge, Pool, Refusal};
use support::{Rng, MOST_PAGES, PAGE};

/// Floats at which a test may go wrong: no numbers, zeros, the smallest, and the
/// ends of the range.
fn edges() -> Vec<f64> {
    let bits = [
        0x7ff8_0000_0000_0000,  // a NaN,
        0xfff8_0000_0000_002a,  // with a sign and a payload,
        0x7ff0_0000_0000_0001,  // a signalling one
        1,                      // the smallest number,
        2,                      // twice that,
        3,                      // and an odd multiple
        0x000f_ffff_ffff_ffff,  // the largest subnormal
        0x0010_0000_0000_0000,  // the smallest normal
        4_096f64.to_bits() - 1, // 4,096 and its neighbours
        4_096f64.to_bits(),
        4_096f64.to_bits() + 1,
    ];
    let others = [
        f64::INFINITY,
        f64::NEG_INFINITY,
        f64::MAX,
        0.0,
        -0.0,
        -f64::from_bits(1),
        -1.0,
        1.0,
        0.1,
        2_048.0,
        4_095.5,
    ];
    bits.into_iter().map(f64::from_bits).chain(others).collect()
}

const SAMPLES: [u32; 7] = [0, 1, 38, 39, 40, 41, u32::MAX];
const COUNTS: [u32; 7] = [0, 1, 7, 4_095, 4_096, 4_097, u32::MAX];

/// A gauge's bits, for NaNs and zeros.
type Bits = (u64, u64, u32);

fn bits(load: f64, level: f64, samples: u32) -> Bits {
    (load.to_bits(), level.to_bits(), samples)
}

/// What start and sample answer, and the gauge afterwards.
type Reply = (Result<(), u8>, Bits);

/// A gauge's three calls, of the proved archive or of a double.
trait Program {
    fn start(&self, level: f64) -> Reply;
    fn sample(&self, gauge: Gauge, count: u32) -> Reply;
    fn trips(&self, gauge: Gauge) -> Result<bool, u8>;
}

struct Proved;

impl Program for Proved {
    fn start(&self, level: f64) -> Reply {
        match Gauge::start(level) {
            Ok(gauge) => (Ok(()), bits(gauge.load, gauge.level, gauge.samples)),
            Err(refusal) => (Err(refusal.number()), bits(0.0, 0.0, 0)),
        }
    }

    fn sample(&self, mut gauge: Gauge, count: u32) -> Reply {
        let answer = gauge.sample(count).map_err(Refusal::number);
        (answer, bits(gauge.load, gauge.level, gauge.samples))
    }

    fn trips(&self, gauge: Gauge) -> Result<bool, u8> {
        gauge.trips().map_err(Refusal::number)
    }
}

/// What the second program answers, and the gauge afterwards, `kept` where it
/// refuses.
fn reply(answer: Result<reference::Gauge, reference::Refusal>, kept: Bits) -> Reply {
    match answer {
        Ok(gauge) => (Ok(()), bits(gauge.load, gauge.level, gauge.samples)),
        Err(refusal) => (Err(refusal.number()), kept),
    }
}

fn second(gauge: Gauge) -> reference::Gauge {
    let Gauge {
        load,
        level,
        samples,
    } = gauge;
    reference::Gauge {
        load,
        level,
        samples,
    }
}

/// The first call whose answer or gauge differs from the second program's.
fn compare(program: &dyn Program, gauge: Gauge, count: u32) -> Result<(), String> {
    let kept = bits(gauge.load, gauge.level, gauge.samples);
    let calls = [
        (
            program.start(gauge.level),
            reply(reference::Gauge::start(gauge.level), bits(0.0, 0.0, 0)),
        ),
        (
            program.sample(gauge, count),
            reply(second(gauge).sample(count), kept),
        ),
    ];
    for (ours, theirs) in calls {
        if ours != theirs {
            return Err(format!("{gauge:?}, {count}: {ours:x?}, not {theirs:x?}"));
        }
    }
    let theirs = second(gauge).trips().map_err(reference::Refusal::number);
    let ours = program.trips(gauge);
    if ours != theirs {
        return Err(format!("{gauge:?} trips: {ours:?}, not {theirs:?}"));
    }
    Ok(())
}

/// Every edge for load and level with every edge of samples, and of counts.
fn at_the_edges(program: &dyn Program) -> Result<(), String> {
    for load in edges() {
        for level in edges() {
            for (samples, count) in SAMPLES.into_iter().flat_map(|s| COUNTS.map(|c| (s, c))) {
                let gauge = Gauge {
                    load,
                    level,
                    samples,
                };
                compare(program, gauge, count)?;
            }
        }
    }
    Ok(())
}

#[test]
fn edges_of_every_number() {
    assert_eq!(at_the_edges(&Proved), Ok(()));
}

#[test]
fn gauges_of_any_bits() {
    let mut rng = Rng::new(10);
    for _ in 0..20_000 {
        // exponents up to 2^12, and now and then any
        let mut float = || match rng.below(8) {
            0 => f64::from_bits(rng.word()),
            _ => f64::from_bits(rng.below(1_036) << 52 | rng.word() >> 12),
        };
        let (load, level) = (float(), float());
        let gauge = Gauge {
            load,
            level,
            samples: rng.below(43) as u32,
        };
        let count = rng.below(4_100) as u32 >> rng.below(13);
        assert_eq!(compare(&Proved, gauge, count), Ok(()));
    }
}

/// From a start on, with refused counts in between: each load times 2 to the
/// power of the round's samples is the weighed sum of its counts.
fn rounds(rng: &mut Rng, level: f64) {
    let mut gauge = Gauge::start(level).expect("in range");
    let mut counts = Vec::new();
    for _ in 0..200 {
        let (samples, sum) = reference::gauge::reading(&counts);
        assert_eq!(gauge.samples, samples);
        assert!(reference::gauge::reads(gauge.load, samples, sum));
        let above = gauge.load > level; // both are exact
        assert_eq!(gauge.trips(), Ok(above));
        let before = gauge;
        let count = rng.below(4_300) as u32;
        match gauge.sample(count) {
            Ok(()) => counts.push(count),
            Err(refusal) => {
                assert_eq!((refusal, gauge), (Refusal::OutOfRange, before));
                assert!(count > 4_096);
            }
        }
        assert_eq!(gauge.level.to_bits(), level.to_bits());
    }
}

#[test]
fn rounds_are_exact() {
    let mut rng = Rng::new(40);
    for level in [0.0, -0.0, 1.0, 2_047.5, 4_096.0] {
        for _ in 0..20 {
            rounds(&mut rng, level);
        }
    }
}

#[test]
fn the_largest_counts_are_exact_to_the_last_sample() {
    let mut gauge = Gauge::start(4_096.0).expect("in range");
    for k in 1..=40 {
        assert_eq!(gauge.sample(4_096), Ok(()));
        assert_eq!(gauge.load, 4_096.0 - 4_096.0 / 2f64.powi(k));
        assert_eq!(gauge.trips(), Ok(false));
    }
    assert_eq!(gauge.sample(4_096), Ok(()));
    assert_eq!((gauge.load, gauge.samples), (2_048.0, 1));
}

#[test]
fn pools_are_sampled() {
    let mut bytes = vec![0; Edition::One.length(MOST_PAGES)];
    assert_eq!(pages_in_use(&bytes), Err(Refusal::NotSound));
    let mut gauge = Gauge::start(5.0).expect("in range");
    let fresh = gauge;
    let mut pool = Pool::new(&mut bytes);
    assert_eq!(gauge.sample_pool(&pool), Err(Refusal::NotSound));
    assert_eq!(gauge, fresh);
    assert_eq!(pool.format(Edition::One), Ok(MOST_PAGES as u32));
    assert_eq!(gauge.sample_pool(&pool), Ok(0));
    let block = pool.alloc((10 * PAGE) as u32).expect("room");
    assert_eq!(gauge.sample_pool(&pool), Ok(10));
    assert_eq!((gauge.load, gauge.trips()), (5.0, Ok(false)));
    pool.alloc(30).expect("room");
    assert_eq!(gauge.sample_pool(&pool), Ok(11));
    assert_eq!((gauge.load, gauge.trips()), (8.0, Ok(true)));
    assert_eq!(pool.free(block), Ok((10 * PAGE) as u32));
    assert_eq!(pool.pages_in_use(), Ok(1));
    for rest in [10, MOST_PAGES - 11] {
        pool.alloc((rest * PAGE) as u32).expect("room");
    }
    assert_eq!(gauge.sample_pool(&pool), Ok(MOST_PAGES as u32));
    assert_eq!(pages_in_use(&bytes), Ok(MOST_PAGES as u32));
}

/// A gauge in ordinary floats with one fault.
#[derive(Clone, Copy, Debug, PartialEq)]
enum Double {
    Faultless,
    CountNotHalved,
    LoadNotHalved,
    RestartLate,
    RestartEarly,
    RestartKeepsTheLoad,
    NanTaken,
    InfinityTaken,
    PastTheRange,
    BelowZero,
    ZeroOfOneSign,
    SamplesUntried,
    CountUntried,
    CountOneTooLarge,
    RefusalRestarts,
    SignOfZeroLost,
    TripsAtEquality,
    TripsUntried,
}

const FAULTS: [Double; 17] = [
    Double::CountNotHalved,
    Double::LoadNotHalved,
    Double::RestartLate,
    Double::RestartEarly,
    Double::RestartKeepsTheLoad,
    Double::NanTaken,
    Double::InfinityTaken,
    Double::PastTheRange,
    Double::BelowZero,
    Double::ZeroOfOneSign,
    Double::SamplesUntried,
    Double::CountUntried,
    Double::CountOneTooLarge,
    Double::RefusalRestarts,
    Double::SignOfZeroLost,
    Double::TripsAtEquality,
    Double::TripsUntried,
];

impl Double {
    fn in_range(self, float: f64) -> bool {
        match self {
            Double::NanTaken if float.is_nan() => true,
            Double::InfinityTaken if float == f64::INFINITY => true,
            Double::PastTheRange => (0.0..4_097.0).contains(&float),
            Double::BelowZero => float <= 4_096.0 && float > -1.0,
            Double::ZeroOfOneSign => float.is_sign_positive() && float <= 4_096.0,
            _ => (0.0..=4_096.0).contains(&float),
        }
    }

    fn usable(self, gauge: Gauge) -> bool {
        let few = gauge.samples <= 40 || self == Double::SamplesUntried;
        few && self.in_range(gauge.load) && self.in_range(gauge.level)
    }

    fn takes(self, count: u32) -> bool {
        match self {
            Double::CountUntried => true,
            Double::CountOneTooLarge => count <= 4_097,
            _ => count <= 4_096,
        }
    }
}

impl Program for Double {
    fn start(&self, level: f64) -> Reply {
        let kept = match level {
            zero if zero == 0.0 && *self == Double::SignOfZeroLost => 0.0,
            _ => level,
        };
        match self.in_range(level) {
            true => (Ok(()), bits(0.0, kept, 0)),
            false => (Err(15), bits(0.0, 0.0, 0)),
        }
    }

    fn sample(&self, gauge: Gauge, count: u32) -> Reply {
        let Gauge {
            load,
            level,
            samples,
        } = gauge;
        let last = match self {
            Double::RestartLate => 41,
            Double::RestartEarly => 39,
            _ => 40,
        };
        let (load, samples) = match samples {
            full if full == last && *self == Double::RestartKeepsTheLoad => (load, 0),
            full if full == last => (0.0, 0),
            _ => (load, samples),
        };
        if !self.usable(gauge) || !self.takes(count) {
            return match self {
                Double::RefusalRestarts => (Err(15), bits(load, level, samples)),
                _ => (Err(15), bits(gauge.load, level, gauge.samples)),
            };
        }
        let count = f64::from(count);
        let load = match self {
            Double::CountNotHalved => load / 2.0 + count,
            Double::LoadNotHalved => load + count / 2.0,
            _ => load / 2.0 + count / 2.0,
        };
        (Ok(()), bits(load, level, samples.wrapping_add(1)))
    }

    fn trips(&self, gauge: Gauge) -> Result<bool, u8> {
        if !self.usable(gauge) && *self != Double::TripsUntried {
            return Err(15);
        }
        match self {
            Double::TripsAtEquality => Ok(gauge.load >= gauge.level),
            _ => Ok(gauge.load > gauge.level),
        }
    }
}

#[test]
fn doubles_with_a_fault_are_caught() {
    assert_eq!(at_the_edges(&Double::Faultless), Ok(()));
    for double in FAULTS {
        assert!(at_the_edges(&double).is_err(), "{double:?} was not caught");
    }
}
