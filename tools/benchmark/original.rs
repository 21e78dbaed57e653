// The original's calls, on the same inputs. Included below the original file's module.

use super::*;
use crate::inputs::{Samples, Survey};
use std::hint::black_box;

fn rows(numbers: &[f64], columns: usize) -> Array2<f64> {
    Array2::from_shape_vec((numbers.len() / columns, columns), numbers.to_vec()).expect("whole rows")
}

const SPHERICAL: u8 = 1;

fn variogram(model: u8, nugget: f64, sill: f64, range: f64) -> Variogram {
    let model = match model {
        SPHERICAL => VariogramModel::Spherical,
        2 => VariogramModel::Exponential,
        _ => VariogramModel::Gaussian,
    };
    Variogram::new(model, nugget, sill, range)
}

fn drift_bases(survey: &Survey) -> Vec<DriftBasis> {
    let mut columns = survey.external.chunks(survey.n());
    let basis = |code: &u8| match code {
        1 => DriftBasis::Constant,
        2 => DriftBasis::Linear,
        3 => DriftBasis::Quadratic,
        _ => DriftBasis::External(columns.next().expect("a column for each external basis").to_vec()),
    };
    survey.bases.iter().map(basis).collect()
}

pub struct Fit {
    coords: Array2<f64>,
    values: Array1<f64>,
    options: UniversalKrigingOptions,
    nodes: Array2<f64>,
    node_external: Option<Array2<f64>>,
}

impl Fit {
    pub fn of(survey: &Survey) -> Fit {
        let variogram = variogram(survey.model, survey.nugget, survey.sill, survey.range);
        Fit {
            coords: rows(&survey.coords, 2),
            values: Array1::from_vec(survey.values.clone()),
            options: UniversalKrigingOptions { drift_bases: drift_bases(survey), variogram, regularization: survey.regularization },
            nodes: rows(&survey.nodes, 2),
            node_external: if survey.external.is_empty() { None } else { Some(rows(&[], survey.p())) },
        }
    }

    pub fn answer(&self) -> Option<UniversalKrigingResult> {
        let node_external = self.node_external.as_ref().map(|array| array.view());
        universal_kriging_fit(self.coords.view(), self.values.view(), &self.options, self.nodes.view(), node_external).ok()
    }

    #[inline(never)]
    pub fn run(&self) {
        black_box(self.answer());
    }
}

/// e^−u of every number, as the original has it: the C library's.
#[inline(never)]
pub fn powers(us: &[f64], out: &mut [f64]) {
    for (u, place) in us.iter().zip(out.iter_mut()) {
        *place = (-u).exp();
    }
    black_box(out);
}

pub struct Interpolation {
    interpolator: KrigingInterpolator,
    points: Array2<f64>,
    values: Array1<f64>,
    targets: Array2<f64>,
}

impl Interpolation {
    pub fn of(samples: &Samples, kriging_type: u8) -> Interpolation {
        let kriging_type = if kriging_type == 1 { KrigingType::Ordinary } else { KrigingType::Universal };
        Interpolation {
            interpolator: KrigingInterpolator::new(kriging_type, variogram(SPHERICAL, samples.nugget, samples.sill, samples.range)),
            points: rows(&samples.points, 2),
            values: Array1::from_vec(samples.values.clone()),
            targets: rows(&samples.targets, 2),
        }
    }

    fn result(&self) -> Option<KrigingResult> {
        self.interpolator.interpolate(&self.points, &self.values.view(), &self.targets).ok()
    }

    pub fn answer(&self) -> Option<(Vec<f64>, Vec<f64>)> {
        let result = self.result()?;
        Some((result.values.iter().copied().collect(), result.variances.iter().copied().collect()))
    }

    #[inline(never)]
    pub fn run(&self) {
        black_box(self.result());
    }
}

pub struct Semivariogram {
    points: Array2<f64>,
    values: Array1<f64>,
    n_bins: usize,
}

impl Semivariogram {
    pub fn of(samples: &Samples, n_bins: usize) -> Semivariogram {
        Semivariogram { points: rows(&samples.points, 2), values: Array1::from_vec(samples.values.clone()), n_bins }
    }

    fn result(&self) -> Option<(Array1<f64>, Array1<f64>)> {
        SemivariogramCalculator::calculate(&self.points, &self.values.view(), self.n_bins).ok()
    }

    pub fn answer(&self) -> Option<(Vec<f64>, Vec<f64>)> {
        let (distances, semivariances) = self.result()?;
        Some((distances.iter().copied().collect(), semivariances.iter().copied().collect()))
    }

    #[inline(never)]
    pub fn run(&self) {
        black_box(self.result());
    }
}
