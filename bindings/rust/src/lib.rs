#![doc = include_str!("../README.md")]

pub mod calls;
mod error;
mod fit;
mod interpolator;
mod semivariogram;
pub mod survey_file;
mod variogram;

pub use error::{Error, ErrorKind, Result};
pub use fit::{universal_kriging_fit, DriftBasis, UniversalKrigingOptions, UniversalKrigingResult};
pub use interpolator::{KrigingInterpolator, KrigingResult, KrigingType};
pub use semivariogram::{Semivariogram, SemivariogramCalculator};
pub use variogram::{Variogram, VariogramModel};

/// Wells, points and samples that a call takes at most: past them it is refused by 9, so that no area is made longer.
pub const MOST_WELLS: usize = 96;
/// Columns of the drift.
pub const MOST_COLUMNS: usize = 12;
/// Nodes and targets.
pub const MOST_NODES: usize = 100;

/// Numbers of the work area of a system of this size.
fn work_area(size: usize) -> Vec<f64> {
    vec![0.0; 2 * size * size]
}
