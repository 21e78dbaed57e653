//! Universal kriging with external drift.
use crate::{calls, work_area, Error, Result, Variogram, VariogramModel, MOST_COLUMNS, MOST_NODES, MOST_WELLS};

/// What the drift is made of: columns at a place (x, y), in the order of the bases.
#[derive(Debug, Clone, PartialEq)]
pub enum DriftBasis {
    /// `1`
    Constant,
    /// `1, x, y`
    Linear,
    /// `1, x, y, x², xy, y²`
    Quadratic,
    /// A number for each well; the nodes' stand in `query_external_drift`.
    External(Vec<f64>),
}

impl DriftBasis {
    /// The code of the exported calls and of the survey file.
    pub fn code(&self) -> u8 {
        match self {
            DriftBasis::Constant => 1,
            DriftBasis::Linear => 2,
            DriftBasis::Quadratic => 3,
            DriftBasis::External(_) => 4,
        }
    }

    fn columns(&self) -> usize {
        match self {
            DriftBasis::Constant | DriftBasis::External(_) => 1,
            DriftBasis::Linear => 3,
            DriftBasis::Quadratic => 6,
        }
    }
}

/// Options of a fit.
#[derive(Debug, Clone, PartialEq)]
pub struct UniversalKrigingOptions {
    pub drift_bases: Vec<DriftBasis>,
    pub variogram: Variogram,
    /// Added to the diagonal between a well and itself.
    pub regularization: f64,
}

impl Default for UniversalKrigingOptions {
    fn default() -> Self {
        Self { drift_bases: vec![DriftBasis::Constant], variogram: Variogram::new(VariogramModel::Spherical, 0.0, 1.0, 1.0), regularization: 1e-10 }
    }
}

/// The answer of a fit, for n wells, m nodes and p columns.
#[derive(Debug, Clone, PartialEq)]
pub struct UniversalKrigingResult {
    /// The figure at each node, m.
    pub predicted: Vec<f64>,
    /// Its kriging variance, m, 0 or above.
    pub variance: Vec<f64>,
    /// The Lagrange multipliers of the last node, p; zeros where there is no node. The original calls them its drift coefficients, but
    /// they are no slopes: those are in `trend`.
    pub multipliers: Vec<f64>,
    /// The estimate of the trend's coefficients, p, in the order of the columns: those of x and y are slopes, in units of value over coordinate.
    /// It does not depend on the nodes, and is there without any.
    pub trend: Vec<f64>,
    /// The weight of each well at each node, n·m, node after node.
    pub weights: Vec<f64>,
    /// The audit's verdict on each node, m: 0 passed, 1 to p + 1 the first row missed, 255 where something is not finite.
    pub verdicts: Vec<u8>,
}

/// The external columns one after another. One that has not a number for each well makes the list's length wrong, whatever the others have.
fn external_list(bases: &[DriftBasis], wells: usize) -> Vec<f64> {
    let columns = || bases.iter().filter_map(|basis| if let DriftBasis::External(column) = basis { Some(column) } else { None });
    if columns().all(|column| column.len() == wells) {
        return columns().flatten().copied().collect();
    }
    vec![0.0; columns().count() * wells + 1]
}

/// Universal kriging with external drift.
///
/// `coords` has x and y of each well, `values` its level, `query_points` x and y of each node, and `query_external_drift` for each node a number
/// for each external basis, node after node; it is not looked at where there is none. `tolerance` is that of the audit, which the original does not have.
pub fn universal_kriging_fit(
    coords: &[f64],
    values: &[f64],
    options: &UniversalKrigingOptions,
    query_points: &[f64],
    query_external_drift: Option<&[f64]>,
    tolerance: f64,
) -> Result<UniversalKrigingResult> {
    let codes: Vec<u8> = options.drift_bases.iter().map(DriftBasis::code).collect();
    let external = external_list(&options.drift_bases, values.len());
    let n = values.len().min(MOST_WELLS);
    let p = options.drift_bases.iter().map(DriftBasis::columns).sum::<usize>().min(MOST_COLUMNS);
    let m = (query_points.len() / 2).min(MOST_NODES);
    let mut answer = UniversalKrigingResult {
        predicted: vec![0.0; m],
        variance: vec![0.0; m],
        multipliers: vec![0.0; p],
        trend: vec![0.0; p],
        weights: vec![0.0; n * m],
        verdicts: vec![0; m],
    };
    let variogram = options.variogram;
    Error::of(calls::fit(
        values,
        coords,
        &codes,
        &external,
        variogram.model.code(),
        variogram.nugget,
        variogram.sill,
        variogram.range,
        variogram.same_spot,
        options.regularization,
        query_points,
        query_external_drift.unwrap_or(&[]),
        tolerance,
        &mut work_area(n + p),
        &mut answer.predicted,
        &mut answer.variance,
        &mut answer.verdicts,
        &mut answer.weights,
        &mut answer.multipliers,
        &mut answer.trend,
    ))?;
    Ok(answer)
}
