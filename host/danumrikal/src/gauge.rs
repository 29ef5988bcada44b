use crate::{ffi, pool, Pool, Refusal};

/// A load gauge: a smoothed number of pages in use, and the level above which
/// the panel trips.
///
/// Each sample makes the load half the old load plus half the new count. After
/// 40 samples the gauge restarts at 0 before the next; within a round the load
/// is exact, no digit is lost. It is plain numbers, which may be kept anywhere,
/// and every call takes any: it refuses a gauge with more than 40 samples, or
/// with a load or level that is no number from 0 to 4,096. -0 counts as 0.
///
/// ```
/// use danumrikal::{Gauge, Refusal};
///
/// let mut gauge = Gauge::start(6.0)?;
/// gauge.sample(9)?;
/// assert_eq!((gauge.load, gauge.trips()), (4.5, Ok(false)));
/// gauge.sample(9)?;
/// assert_eq!((gauge.load, gauge.trips()), (6.75, Ok(true)));
/// # Ok::<(), Refusal>(())
/// ```
#[derive(Clone, Copy, Debug, PartialEq)]
#[repr(C)]
pub struct Gauge {
    /// The smoothed number of pages in use.
    pub load: f64,
    /// The level above which the panel trips.
    pub level: f64,
    /// Samples of the round so far.
    pub samples: u32,
}

impl Gauge {
    /// A gauge at load 0, with this trip level.
    ///
    /// # Errors
    ///
    /// [`Refusal::OutOfRange`]: the level is no number from 0 to 4,096.
    ///
    /// ```
    /// use danumrikal::{Gauge, Refusal};
    ///
    /// assert_eq!(Gauge::start(4_096.5), Err(Refusal::OutOfRange));
    /// assert_eq!(Gauge::start(f64::NAN), Err(Refusal::OutOfRange));
    /// ```
    pub fn start(level: f64) -> Result<Gauge, Refusal> {
        let reply = ffi::gauge_start(level);
        pool::answer(reply.answer).map(|_| reply.gauge)
    }

    /// Takes a sample: a count of pages in use.
    ///
    /// # Errors
    ///
    /// [`Refusal::OutOfRange`]: the count is above 4,096, or the gauge has a
    /// number out of its range. The gauge stays as it was.
    ///
    /// ```
    /// use danumrikal::{Gauge, Refusal};
    ///
    /// let mut gauge = Gauge::start(6.0)?;
    /// assert_eq!(gauge.sample(4_097), Err(Refusal::OutOfRange));
    /// assert_eq!(gauge, Gauge::start(6.0)?);
    /// # Ok::<(), Refusal>(())
    /// ```
    pub fn sample(&mut self, count: u32) -> Result<(), Refusal> {
        let reply = ffi::gauge_sample(*self, count);
        *self = reply.gauge;
        pool::answer(reply.answer).map(|_| ())
    }

    /// Takes a sample of a pool's pages in use, and answers their number. For
    /// bytes that are lent to be read alone, sample what
    /// [`pages_in_use`](crate::pages_in_use) answers.
    ///
    /// # Errors
    ///
    /// The first of these; the gauge stays as it was:
    ///
    /// - [`Refusal::NotSound`]: the pool's records break a rule
    /// - [`Refusal::OutOfRange`]: the gauge has a number out of its range
    ///
    /// ```
    /// use danumrikal::{Edition, Gauge, Pool};
    ///
    /// let mut bytes = vec![0; Edition::One.length(12)];
    /// let mut pool = Pool::new(&mut bytes);
    /// pool.format(Edition::One)?;
    /// pool.alloc(20_000)?;
    /// let mut gauge = Gauge::start(6.0)?;
    /// assert_eq!(gauge.sample_pool(&pool), Ok(5));
    /// assert_eq!(gauge.load, 2.5);
    /// # Ok::<(), danumrikal::Refusal>(())
    /// ```
    pub fn sample_pool(&mut self, pool: &Pool) -> Result<u32, Refusal> {
        let count = pool.pages_in_use()?;
        self.sample(count).map(|()| count)
    }

    /// Whether the panel trips: the load is above the level. A load at the level
    /// does not trip.
    ///
    /// # Errors
    ///
    /// [`Refusal::OutOfRange`]: the gauge has a number out of its range.
    pub fn trips(&self) -> Result<bool, Refusal> {
        pool::answer(ffi::gauge_trips(*self)).map(|value| value == 1)
    }
}
