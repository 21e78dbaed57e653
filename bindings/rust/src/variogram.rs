//! The variogram, and how the calls name its model.

/// Variogram models, in the original's order. Exponential needs a range above zero: else it is refused by 12.
#[derive(Debug, Clone, Copy, PartialEq, Eq)]
pub enum VariogramModel {
    Spherical,
    Exponential,
    Gaussian,
    Linear,
}

impl VariogramModel {
    /// The code of the exported calls and of the survey file.
    pub fn code(self) -> u8 {
        match self {
            VariogramModel::Spherical => 1,
            VariogramModel::Exponential => 2,
            VariogramModel::Gaussian => 3,
            VariogramModel::Linear => 4,
        }
    }

    /// The model of a code, if it is one.
    pub fn of_code(code: u8) -> Option<Self> {
        match code {
            1 => Some(VariogramModel::Spherical),
            2 => Some(VariogramModel::Exponential),
            3 => Some(VariogramModel::Gaussian),
            4 => Some(VariogramModel::Linear),
            _ => None,
        }
    }
}

/// Variogram parameters.
#[derive(Debug, Clone, Copy, PartialEq)]
pub struct Variogram {
    pub nugget: f64,
    pub sill: f64,
    pub range: f64,
    /// Below this distance the variogram is 0: section 3 of docs/REFERENCE.md, with a warning. The original has no such field, and 2^-52 in its place.
    pub same_spot: f64,
    pub model: VariogramModel,
}

impl Variogram {
    /// 2^-52: the same-spot distance of `new`.
    pub const SAME_SPOT: f64 = f64::EPSILON;

    pub fn new(model: VariogramModel, nugget: f64, sill: f64, range: f64) -> Self {
        Self { nugget, sill, range, same_spot: Self::SAME_SPOT, model }
    }

    /// The same with another same-spot distance, finite and 2^-52 or more: else a call refuses it by 22. A survey file takes 2^-52 alone.
    pub fn with_same_spot(self, distance: f64) -> Self {
        Self { same_spot: distance, ..self }
    }
}
