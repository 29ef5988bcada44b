//! The second program's gauge against ordinary floats, and its exact reading.

use reference::gauge::{reading, reads, Exact, MOST, ROUND};
use reference::{Gauge, Refusal};
use support::Rng;

/// A float from 0 to 4,096 of any exponent, subnormals and both zeros too.
fn float(rng: &mut Rng) -> f64 {
    let field = match rng.below(4) {
        0 => rng.below(3),
        1 => 1_030 + rng.below(6),
        _ => rng.below(1_035),
    };
    let digits = match rng.below(3) {
        0 => rng.below(4),
        1 => (1 << 52) - 1 - rng.below(4),
        _ => rng.word() >> 12,
    };
    let float = f64::from_bits(field << 52 | digits);
    match rng.below(20) {
        0 => 0.0,
        1 => -0.0,
        _ if float > 4_096.0 => 4_096.0,
        _ => float,
    }
}

#[test]
fn a_float_is_its_own_nearest() {
    let mut rng = Rng::new(1);
    for _ in 0..20_000 {
        let float = float(&mut rng);
        let back = Exact::of_float(float).expect("in range").nearest();
        assert_eq!(back.to_bits(), float.abs().to_bits());
    }
}

#[test]
fn samples_are_those_of_ordinary_floats() {
    let mut rng = Rng::new(2);
    for _ in 0..20_000 {
        let gauge = Gauge {
            load: float(&mut rng),
            level: float(&mut rng),
            samples: rng.below(u64::from(ROUND)) as u32,
        };
        let count = rng.below(u64::from(MOST) + 1) as u32 >> rng.below(13);
        let next = gauge.sample(count).expect("in range");
        let load = gauge.load / 2.0 + f64::from(count) / 2.0;
        assert_eq!(next.load.to_bits(), load.to_bits(), "{gauge:?}, {count}");
        assert_eq!(next.level.to_bits(), gauge.level.to_bits());
        assert_eq!(next.samples, gauge.samples + 1);
        assert_eq!(gauge.trips(), Ok(gauge.load > gauge.level));
    }
}

#[test]
fn a_round_is_exact() {
    let mut rng = Rng::new(3);
    for _ in 0..50 {
        let mut gauge = Gauge::start(float(&mut rng)).expect("in range");
        let mut counts = Vec::new();
        for _ in 0..100 {
            let (samples, sum) = reading(&counts);
            assert_eq!(gauge.samples, samples);
            assert!(reads(gauge.load, samples, sum), "{gauge:?}, {counts:?}");
            let count = rng.below(u64::from(MOST) + 1) as u32;
            counts.push(count);
            gauge = gauge.sample(count).expect("in range");
        }
    }
}

#[test]
fn what_is_out_of_range() {
    let past = f64::from_bits(4_096_f64.to_bits() + 1);
    let below = -f64::from_bits(1);
    for float in [
        past,
        below,
        -1.0,
        f64::INFINITY,
        f64::NEG_INFINITY,
        f64::NAN,
    ] {
        assert!(Exact::of_float(float).is_none(), "{float}");
        assert_eq!(Gauge::start(float).unwrap_err(), Refusal::OutOfRange);
    }
    for float in [0.0, -0.0, f64::from_bits(1), 4_096.0] {
        assert!(Gauge::start(float).is_ok(), "{float}");
    }
}
