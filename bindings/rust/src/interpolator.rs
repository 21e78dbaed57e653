//! Kriging interpolation.
use crate::{calls, work_area, Error, Result, Variogram, MOST_NODES, MOST_WELLS};

/// Kriging types.
#[derive(Debug, Clone, Copy, PartialEq, Eq)]
pub enum KrigingType {
    /// Ordinary kriging (constant mean)
    Ordinary,
    /// Universal kriging (trend surface)
    Universal,
}

impl KrigingType {
    /// The code of the exported calls.
    pub fn code(self) -> u8 {
        match self {
            KrigingType::Ordinary => 1,
            KrigingType::Universal => 2,
        }
    }

    fn terms(self) -> usize {
        match self {
            KrigingType::Ordinary => 1,
            KrigingType::Universal => 4,
        }
    }
}

/// The answer of an interpolation.
#[derive(Debug, Clone, PartialEq)]
pub struct KrigingResult {
    /// The value at each target.
    pub values: Vec<f64>,
    /// Its variance, 0 or above.
    pub variances: Vec<f64>,
}

/// Kriging interpolator.
#[derive(Debug, Clone, Copy, PartialEq)]
pub struct KrigingInterpolator {
    kriging_type: KrigingType,
    variogram: Variogram,
}

impl KrigingInterpolator {
    pub fn new(kriging_type: KrigingType, variogram: Variogram) -> Self {
        Self { kriging_type, variogram }
    }

    /// The values at targets, from those at points. Points and targets have `dimension` numbers each, row after row.
    pub fn interpolate(&self, points: &[f64], values: &[f64], targets: &[f64], dimension: usize) -> Result<KrigingResult> {
        let m = targets.len().checked_div(dimension).unwrap_or(0).min(MOST_NODES);
        let mut answer = KrigingResult { values: vec![0.0; m], variances: vec![0.0; m] };
        Error::of(calls::interpolate(
            values,
            points,
            targets,
            dimension,
            self.kriging_type.code(),
            self.variogram.model.code(),
            self.variogram.nugget,
            self.variogram.sill,
            self.variogram.range,
            self.variogram.same_spot,
            &mut work_area(values.len().min(MOST_WELLS) + self.kriging_type.terms()),
            &mut answer.values,
            &mut answer.variances,
        ))?;
        Ok(answer)
    }
}
