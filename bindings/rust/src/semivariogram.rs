//! The experimental semivariogram.
use crate::{calls, Error, Result};

/// More bins than these are refused by 15.
const BINS: usize = 64;

/// The bins that have a pair, by rising distance.
#[derive(Debug, Clone, PartialEq)]
pub struct Semivariogram {
    /// The middle of each bin.
    pub distances: Vec<f64>,
    /// The average over its pairs.
    pub semivariances: Vec<f64>,
    /// How many pairs it has.
    pub counts: Vec<usize>,
}

/// Semivariogram calculator.
pub struct SemivariogramCalculator;

impl SemivariogramCalculator {
    /// The semivariogram of points of `dimension` numbers each, row after row, with a value at each.
    pub fn calculate(points: &[f64], values: &[f64], dimension: usize, n_bins: usize) -> Result<Semivariogram> {
        let bins = n_bins.min(BINS);
        let mut answer = Semivariogram { distances: vec![0.0; bins], semivariances: vec![0.0; bins], counts: vec![0; bins] };
        let mut kept = 0;
        Error::of(calls::semivariogram(
            points,
            values,
            dimension,
            n_bins,
            &mut answer.distances,
            &mut answer.semivariances,
            &mut answer.counts,
            &mut kept,
        ))?;
        answer.distances.truncate(kept);
        answer.semivariances.truncate(kept);
        answer.counts.truncate(kept);
        Ok(answer)
    }
}
