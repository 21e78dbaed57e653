//! A stand-in for the error kinds of the original error.rs, as far as kriging.rs makes them. Texts are dropped.

pub type Result<T> = std::result::Result<T, AnalyticsError>;

#[derive(Debug, Clone, Copy)]
pub enum AnalyticsError {
    InvalidInput,
    InsufficientData,
    MatrixError,
    DimensionMismatch,
    InvalidParameter,
}

impl AnalyticsError {
    pub fn invalid_input(_: impl Into<String>) -> Self {
        Self::InvalidInput
    }

    pub fn insufficient_data(_: impl Into<String>) -> Self {
        Self::InsufficientData
    }

    pub fn matrix_error(_: impl Into<String>) -> Self {
        Self::MatrixError
    }

    pub fn dimension_mismatch(_: impl Into<String>, _: impl Into<String>) -> Self {
        Self::DimensionMismatch
    }

    pub fn invalid_parameter(_: impl Into<String>, _: impl Into<String>) -> Self {
        Self::InvalidParameter
    }
}
