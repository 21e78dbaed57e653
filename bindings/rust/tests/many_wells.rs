//! Up to 96 wells: every call answers, 97 are 9 and never 17; and the survey file's two versions.
use nakwemol::survey_file::{self, Survey};
use nakwemol::*;

const COUNTS: [usize; 4] = [48, 49, 60, MOST_WELLS];
const AWAY: [f64; 2] = [-9.0, 0.0];
/// It reaches half a metre, so that wells a metre apart all say as much.
const SHORT: Variogram = Variogram { nugget: 0.0, sill: 1.0, range: 0.5, same_spot: Variogram::SAME_SPOT, model: VariogramModel::Spherical };

/// Wells a metre apart in a row, well i with the level i: their places and their levels.
fn row(n: usize) -> (Vec<f64>, Vec<f64>) {
    ((0..n).flat_map(|i| [i as f64, 0.0]).collect(), (0..n).map(|i| i as f64).collect())
}

fn fit(n: usize, drift_bases: Vec<DriftBasis>) -> Result<UniversalKrigingResult> {
    let (coords, values) = row(n);
    universal_kriging_fit(&coords, &values, &UniversalKrigingOptions { drift_bases, variogram: SHORT, regularization: 0.0 }, &AWAY, None, 1e-9)
}

fn interpolate(n: usize, kriging_type: KrigingType) -> Result<KrigingResult> {
    let (coords, values) = row(n);
    KrigingInterpolator::new(kriging_type, SHORT).interpolate(&coords, &values, &AWAY, 2)
}

fn semivariogram(n: usize) -> Result<Semivariogram> {
    let (coords, values) = row(n);
    SemivariogramCalculator::calculate(&coords, &values, 2, 1)
}

fn survey(n: usize) -> Survey {
    let (coords, values) = row(n);
    let variogram = Variogram::new(VariogramModel::Linear, 0.0, 2.0, 3.0);
    let (bases, external, nodes, node_external) = (vec![1], vec![], AWAY.to_vec(), vec![]);
    Survey { values, coords, bases, external, nodes, node_external, variogram, regularization: 1e-10, tolerance: 1e-6 }
}

fn number<T>(result: Result<T>) -> u8 {
    result.err().map_or(0, |error| error.number)
}

fn near(is: f64, should: f64) -> bool {
    (is / should - 1.0).abs() < 1e-12
}

/// All weights are 1 / n, the figure is the average of 0 to n - 1, and the variance 1 + 1 / n.
#[test]
fn fits_of_a_row() {
    for n in COUNTS {
        let (wells, found) = (n as f64, fit(n, vec![DriftBasis::Constant]).unwrap());
        assert!(near(found.predicted[0], (wells - 1.0) / 2.0) && near(found.trend[0], (wells - 1.0) / 2.0), "{n}: {found:?}");
        assert!(near(found.variance[0], 1.0 + 1.0 / wells), "{n}: {found:?}");
        assert!(found.weights.len() == n && found.weights.iter().all(|&w| near(w, 1.0 / wells)), "{n}: {found:?}");
        assert_eq!(found.verdicts, [0]);
    }
}

#[test]
fn interpolations_of_a_row() {
    for n in COUNTS {
        let (wells, found) = (n as f64, interpolate(n, KrigingType::Ordinary).unwrap());
        assert!(near(found.values[0], (wells - 1.0) / 2.0) && near(found.variances[0], 1.0 + 1.0 / wells), "{n}: {found:?}");
    }
}

/// Half the average square of all differences is n (n + 1) / 12.
#[test]
fn semivariograms_of_a_row() {
    for n in COUNTS {
        let wells = n as f64;
        let wanted =
            Semivariogram { distances: vec![(wells - 1.0) / 2.0], semivariances: vec![wells * (wells + 1.0) / 12.0], counts: vec![n * (n - 1) / 2] };
        assert_eq!(semivariogram(n).unwrap(), wanted);
    }
}

/// With all twelve columns the work area has 2·108·108 numbers, and none is missing: a row settles no slope to the north, so that it is 19 and not 17.
#[test]
fn never_17() {
    let twelve = || vec![DriftBasis::Quadratic, DriftBasis::Quadratic];
    assert_eq!([49, 96, 97].map(|n| number(fit(n, twelve()))), [19, 19, 9]);
    assert_eq!([49, 96, 97].map(|n| number(interpolate(n, KrigingType::Universal))), [19, 19, 9]);
    assert_eq!((number(fit(97, vec![DriftBasis::Constant])), number(semivariogram(97))), (9, 9));
}

/// The version is the third byte from the end.
#[test]
fn versions_of_the_survey_file() {
    for n in COUNTS {
        let file = survey_file::write(&survey(n)).unwrap();
        let as_version = |version: u8| {
            let mut bytes = file.clone();
            bytes[file.len() - 3] = version;
            survey_file::read(&bytes)
        };
        assert_eq!(file[file.len() - 3], if n > 48 { 2 } else { 1 }, "{n}");
        assert_eq!(survey_file::read(&file).unwrap(), survey(n));
        assert_eq!(as_version(1).unwrap(), survey(n));
        assert_eq!([0, 2, 3].map(|version| number(as_version(version))), [16, if n > 48 { 0 } else { 16 }, 16], "{n}");
    }
    assert_eq!(number(survey_file::write(&survey(97))), 16);
    let elsewhere = survey(97).variogram.with_same_spot(1.0);
    assert_eq!(number(survey_file::write(&Survey { variogram: elsewhere, ..survey(97) })), 22);
}
