//! The exported functions as they are: lists and areas as slices, options as numbers and codes, and the answer's number back.
//! include/nakwemol.h says of each what its lists and areas hold, and in which order its numbers come.
#![allow(clippy::too_many_arguments)]

#[rustfmt::skip]
mod exported {
    extern "C" {
        pub fn nakwemol_fit(
            values: *const f64, values_count: usize,
            coords: *const f64, coords_count: usize,
            bases: *const u8, bases_count: usize,
            external: *const f64, external_count: usize,
            model: u8, nugget: f64, sill: f64, range: f64, same_spot: f64, regularization: f64,
            nodes: *const f64, nodes_count: usize,
            node_external: *const f64, node_external_count: usize,
            tolerance: f64,
            work: *mut f64, work_count: usize,
            predicted: *mut f64, predicted_count: usize,
            variance: *mut f64, variance_count: usize,
            verdicts: *mut u8, verdicts_count: usize,
            weights: *mut f64, weights_count: usize,
            multipliers: *mut f64, multipliers_count: usize,
            trend: *mut f64, trend_count: usize,
        ) -> u8;

        pub fn nakwemol_interpolate(
            values: *const f64, values_count: usize,
            points: *const f64, points_count: usize,
            targets: *const f64, targets_count: usize,
            d: usize, kriging_type: u8, model: u8, nugget: f64, sill: f64, range: f64, same_spot: f64,
            work: *mut f64, work_count: usize,
            figures: *mut f64, figures_count: usize,
            variances: *mut f64, variances_count: usize,
        ) -> u8;

        pub fn nakwemol_semivariogram(
            points: *const f64, points_count: usize,
            values: *const f64, values_count: usize,
            d: usize, n_bins: usize,
            distances: *mut f64, distances_count: usize,
            semivariances: *mut f64, semivariances_count: usize,
            counts: *mut usize, counts_count: usize,
            kept: *mut usize,
        ) -> u8;

        pub fn nakwemol_read(
            bytes: *const u8, bytes_count: usize,
            values: *mut f64, values_count: usize,
            coords: *mut f64, coords_count: usize,
            bases: *mut u8, bases_count: usize,
            external: *mut f64, external_count: usize,
            nodes: *mut f64, nodes_count: usize,
            node_external: *mut f64, node_external_count: usize,
            counts: *mut [usize; 3], numbers: *mut [f64; 5], model: *mut u8,
        ) -> u8;

        pub fn nakwemol_write(
            values: *const f64, values_count: usize,
            coords: *const f64, coords_count: usize,
            bases: *const u8, bases_count: usize,
            external: *const f64, external_count: usize,
            model: u8, nugget: f64, sill: f64, range: f64, same_spot: f64, regularization: f64,
            nodes: *const f64, nodes_count: usize,
            node_external: *const f64, node_external_count: usize,
            tolerance: f64,
            file: *mut u8, file_count: usize, length: *mut usize,
        ) -> u8;
    }
}

// A call asks that every pointer be valid and aligned for its count, and that no area overlap another one or a list: slices are, and `&mut` do not.

/// `nakwemol_fit`.
pub fn fit(
    values: &[f64],
    coords: &[f64],
    bases: &[u8],
    external: &[f64],
    model: u8,
    nugget: f64,
    sill: f64,
    range: f64,
    same_spot: f64,
    regularization: f64,
    nodes: &[f64],
    node_external: &[f64],
    tolerance: f64,
    work: &mut [f64],
    predicted: &mut [f64],
    variance: &mut [f64],
    verdicts: &mut [u8],
    weights: &mut [f64],
    multipliers: &mut [f64],
    trend: &mut [f64],
) -> u8 {
    #[rustfmt::skip]
    let number = unsafe {
        exported::nakwemol_fit(
            values.as_ptr(), values.len(),
            coords.as_ptr(), coords.len(),
            bases.as_ptr(), bases.len(),
            external.as_ptr(), external.len(),
            model, nugget, sill, range, same_spot, regularization,
            nodes.as_ptr(), nodes.len(),
            node_external.as_ptr(), node_external.len(),
            tolerance,
            work.as_mut_ptr(), work.len(),
            predicted.as_mut_ptr(), predicted.len(),
            variance.as_mut_ptr(), variance.len(),
            verdicts.as_mut_ptr(), verdicts.len(),
            weights.as_mut_ptr(), weights.len(),
            multipliers.as_mut_ptr(), multipliers.len(),
            trend.as_mut_ptr(), trend.len(),
        )
    };
    number
}

/// `nakwemol_interpolate`.
pub fn interpolate(
    values: &[f64],
    points: &[f64],
    targets: &[f64],
    d: usize,
    kriging_type: u8,
    model: u8,
    nugget: f64,
    sill: f64,
    range: f64,
    same_spot: f64,
    work: &mut [f64],
    figures: &mut [f64],
    variances: &mut [f64],
) -> u8 {
    #[rustfmt::skip]
    let number = unsafe {
        exported::nakwemol_interpolate(
            values.as_ptr(), values.len(),
            points.as_ptr(), points.len(),
            targets.as_ptr(), targets.len(),
            d, kriging_type, model, nugget, sill, range, same_spot,
            work.as_mut_ptr(), work.len(),
            figures.as_mut_ptr(), figures.len(),
            variances.as_mut_ptr(), variances.len(),
        )
    };
    number
}

/// `nakwemol_semivariogram`.
pub fn semivariogram(
    points: &[f64],
    values: &[f64],
    d: usize,
    n_bins: usize,
    distances: &mut [f64],
    semivariances: &mut [f64],
    counts: &mut [usize],
    kept: &mut usize,
) -> u8 {
    #[rustfmt::skip]
    let number = unsafe {
        exported::nakwemol_semivariogram(
            points.as_ptr(), points.len(),
            values.as_ptr(), values.len(),
            d, n_bins,
            distances.as_mut_ptr(), distances.len(),
            semivariances.as_mut_ptr(), semivariances.len(),
            counts.as_mut_ptr(), counts.len(),
            kept,
        )
    };
    number
}

/// `nakwemol_read`.
pub fn read(
    bytes: &[u8],
    values: &mut [f64],
    coords: &mut [f64],
    bases: &mut [u8],
    external: &mut [f64],
    nodes: &mut [f64],
    node_external: &mut [f64],
    counts: &mut [usize; 3],
    numbers: &mut [f64; 5],
    model: &mut u8,
) -> u8 {
    #[rustfmt::skip]
    let number = unsafe {
        exported::nakwemol_read(
            bytes.as_ptr(), bytes.len(),
            values.as_mut_ptr(), values.len(),
            coords.as_mut_ptr(), coords.len(),
            bases.as_mut_ptr(), bases.len(),
            external.as_mut_ptr(), external.len(),
            nodes.as_mut_ptr(), nodes.len(),
            node_external.as_mut_ptr(), node_external.len(),
            counts, numbers, model,
        )
    };
    number
}

/// `nakwemol_write`.
pub fn write(
    values: &[f64],
    coords: &[f64],
    bases: &[u8],
    external: &[f64],
    model: u8,
    nugget: f64,
    sill: f64,
    range: f64,
    same_spot: f64,
    regularization: f64,
    nodes: &[f64],
    node_external: &[f64],
    tolerance: f64,
    file: &mut [u8],
    length: &mut usize,
) -> u8 {
    #[rustfmt::skip]
    let number = unsafe {
        exported::nakwemol_write(
            values.as_ptr(), values.len(),
            coords.as_ptr(), coords.len(),
            bases.as_ptr(), bases.len(),
            external.as_ptr(), external.len(),
            model, nugget, sill, range, same_spot, regularization,
            nodes.as_ptr(), nodes.len(),
            node_external.as_ptr(), node_external.len(),
            tolerance,
            file.as_mut_ptr(), file.len(), length,
        )
    };
    number
}
