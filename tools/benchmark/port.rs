//! The port's calls, with their areas lent once and used again.

use crate::calls;
use crate::inputs::{self, Kind, Samples, Survey};
use std::hint::black_box;

const SPHERICAL: u8 = 1;
const AXES: usize = 2;
/// The original's own: below it a variogram is 0.
const SAME_SPOT: f64 = f64::EPSILON;

pub struct Fit {
    survey: Survey,
    work: Vec<f64>,
    pub predicted: Vec<f64>,
    pub variance: Vec<f64>,
    pub verdicts: Vec<u8>,
    pub weights: Vec<f64>,
    pub multipliers: Vec<f64>,
    trend: Vec<f64>,
}

impl Fit {
    pub fn of(survey: Survey) -> Fit {
        let (n, p, m) = (survey.n(), survey.p(), survey.m());
        let trend = if survey.kind == Kind::Refused { 0 } else { p };
        Fit {
            survey,
            work: vec![0.0; 2 * (n + p) * (n + p)],
            predicted: vec![0.0; m],
            variance: vec![0.0; m],
            verdicts: vec![0; m],
            weights: vec![0.0; n * m],
            multipliers: vec![0.0; p],
            trend: vec![0.0; trend],
        }
    }

    pub fn call(&mut self) -> u8 {
        let s = &self.survey;
        calls::fit(
            &s.values,
            &s.coords,
            &s.bases,
            &s.external,
            s.model,
            s.nugget,
            s.sill,
            s.range,
            SAME_SPOT,
            s.regularization,
            &s.nodes,
            &[],
            s.tolerance,
            &mut self.work,
            &mut self.predicted,
            &mut self.variance,
            &mut self.verdicts,
            &mut self.weights,
            &mut self.multipliers,
            &mut self.trend,
        )
    }

    #[inline(never)]
    pub fn run(&mut self) {
        black_box(self.call());
        black_box(&self.predicted);
    }

    /// How many rows the audits of all nodes look at: up to the first that is missed, else p + 1.
    pub fn rows(&mut self) -> usize {
        if self.call() != 0 {
            return 0;
        }
        let all = self.survey.p() + 1;
        self.verdicts.iter().map(|verdict| if *verdict == 0 { all } else { *verdict as usize }).sum()
    }
}

extern "C" {
    fn nakwemol_exp_neg_each(us: *const f64, us_count: usize, out: *mut f64, out_count: usize);
}

/// e^−u of every number, as a fit has them: the table is laid out once.
#[inline(never)]
pub fn powers(us: &[f64], out: &mut [f64]) {
    // SAFETY: both lists are valid for their counts, and no number is in both.
    unsafe { nakwemol_exp_neg_each(us.as_ptr(), us.len(), out.as_mut_ptr(), out.len()) };
    black_box(out);
}

extern "C" {
    fn timed_compare(a: &[u64; 67], b: &[u64; 67], words: &mut usize) -> u8;
}

/// An exact sum at the start of a cache line, so that each is copied alike.
#[repr(align(64))]
struct Sum([u64; 67]);

/// A comparison of two exact sums.
pub struct Sums {
    one: Sum,
    other: Sum,
}

impl Sums {
    pub fn differing(place: usize) -> Sums {
        let (one, other) = inputs::sums(place);
        Sums { one: Sum(one), other: Sum(other) }
    }

    /// The order's number, and how many words it took.
    pub fn told(&self) -> (u8, usize) {
        let mut words = 0;
        // SAFETY: both sums and the place are valid, and none of them is another.
        let order = unsafe { timed_compare(&self.one.0, &self.other.0, &mut words) };
        (order, words)
    }

    #[inline(never)]
    pub fn run(&self) {
        black_box(self.told());
    }
}

pub struct Interpolation {
    samples: Samples,
    kriging_type: u8,
    work: Vec<f64>,
    pub figures: Vec<f64>,
    pub variances: Vec<f64>,
}

impl Interpolation {
    pub fn of(samples: Samples, kriging_type: u8) -> Interpolation {
        let size = samples.values.len() + if kriging_type == 1 { 1 } else { 4 };
        let m = samples.targets.len() / AXES;
        Interpolation { samples, kriging_type, work: vec![0.0; 2 * size * size], figures: vec![0.0; m], variances: vec![0.0; m] }
    }

    pub fn call(&mut self) -> u8 {
        let s = &self.samples;
        calls::interpolate(
            &s.values,
            &s.points,
            &s.targets,
            AXES,
            self.kriging_type,
            SPHERICAL,
            s.nugget,
            s.sill,
            s.range,
            SAME_SPOT,
            &mut self.work,
            &mut self.figures,
            &mut self.variances,
        )
    }

    #[inline(never)]
    pub fn run(&mut self) {
        black_box(self.call());
        black_box(&self.figures);
    }
}

pub struct Semivariogram {
    samples: Samples,
    n_bins: usize,
    pub distances: Vec<f64>,
    pub semivariances: Vec<f64>,
    counts: Vec<usize>,
    pub kept: usize,
}

impl Semivariogram {
    pub fn of(samples: Samples, n_bins: usize) -> Semivariogram {
        let (distances, semivariances, counts) = (vec![0.0; n_bins], vec![0.0; n_bins], vec![0; n_bins]);
        Semivariogram { samples, n_bins, distances, semivariances, counts, kept: 0 }
    }

    pub fn call(&mut self) -> u8 {
        calls::semivariogram(
            &self.samples.points,
            &self.samples.values,
            AXES,
            self.n_bins,
            &mut self.distances,
            &mut self.semivariances,
            &mut self.counts,
            &mut self.kept,
        )
    }

    #[inline(never)]
    pub fn run(&mut self) {
        black_box(self.call());
        black_box(&self.distances);
    }
}
