//! Samples of all sides, taken by turns, and what they come to.
use crate::clock::now;
use crate::Side;
use std::time::Duration;

/// How often the clock is read for nothing, to know what that takes.
const TRIES: usize = 1_001;

/// How much is measured.
#[derive(Clone, Copy)]
pub struct Effort {
    pub samples: usize,
    /// What a sample should take at least, timed parts alone.
    pub enough: Duration,
}

/// Times of a pass in nanoseconds: of each side as many as there are samples.
pub struct Times(Vec<Vec<f64>>);

/// How often one side's time holds another's: by the medians, and sample by sample the 10th and the 90th percentile.
pub struct Ratio {
    pub median: f64,
    pub low: f64,
    pub high: f64,
}

impl Times {
    pub fn median(&self, side: usize) -> f64 {
        percentile(self.0[side].clone(), 0.5)
    }

    pub fn ratio(&self, side: usize, other: usize) -> Ratio {
        let each: Vec<f64> = self.0[side].iter().zip(&self.0[other]).map(|(time, other)| time / other).collect();
        Ratio { median: self.median(side) / self.median(other), low: percentile(each.clone(), 0.1), high: percentile(each, 0.9) }
    }
}

fn percentile(mut values: Vec<f64>, part: f64) -> f64 {
    values.sort_by(f64::total_cmp);
    let place = part * (values.len() - 1) as f64;
    let (below, above) = (values[place.floor() as usize], values[place.ceil() as usize]);
    below + (above - below) * place.fract()
}

/// A clock that knows what reading it takes: a short pass would seem longer by that.
struct Watch {
    own: Duration,
}

impl Watch {
    fn new() -> Watch {
        let plain = Watch { own: Duration::ZERO };
        let mut tries: Vec<Duration> = (0..TRIES).map(|_| plain.time(|| ())).collect();
        tries.sort();
        Watch { own: tries[TRIES / 2] }
    }

    fn time(&self, f: impl FnOnce()) -> Duration {
        let start = now();
        f();
        (now() - start).saturating_sub(self.own)
    }

    /// The time of so many passes. What prepares a pass is not in it.
    fn sample(&self, side: &mut dyn Side, passes: u32) -> Duration {
        if !side.needs_preparing() {
            return self.time(|| (0..passes).for_each(|_| side.pass()));
        }
        let once = |_| {
            side.prepare();
            self.time(|| side.pass())
        };
        (0..passes).map(once).sum()
    }

    /// How many passes a sample has to have, which should take so long.
    fn passes(&self, side: &mut dyn Side, enough: Duration) -> u32 {
        let mut passes = 1;
        while self.sample(side, passes) < enough {
            passes *= 2;
        }
        passes
    }
}

pub fn measure(sides: &mut [&mut dyn Side], effort: Effort) -> Times {
    let watch = Watch::new();
    let passes: Vec<u32> = sides.iter_mut().map(|side| watch.passes(*side, effort.enough)).collect();
    let mut times = vec![Vec::new(); sides.len()];
    for index in 0..effort.samples {
        for turn in 0..sides.len() {
            // Each side comes first as often as the others.
            let side = (index + turn) % sides.len();
            let time = watch.sample(sides[side], passes[side]);
            times[side].push(time.as_nanos() as f64 / f64::from(passes[side]));
        }
    }
    Times(times)
}
