//! Small cases whose answers are written down here, the refusals that only the safe calls have to see to, and the sentences of the errors.
use nakwemol::survey_file::{self, Survey};
use nakwemol::*;

const SPHERICAL: Variogram = Variogram { nugget: 0.0, sill: 1.0, range: 1.0, same_spot: Variogram::SAME_SPOT, model: VariogramModel::Spherical };

/// Two wells, (0, 0) with 2 and (2, 0) with 6, and the node (1, 0).
const COORDS: [f64; 4] = [0.0, 0.0, 2.0, 0.0];
const VALUES: [f64; 2] = [2.0, 6.0];
const NODE: [f64; 2] = [1.0, 0.0];

fn options(drift_bases: Vec<DriftBasis>) -> UniversalKrigingOptions {
    UniversalKrigingOptions { drift_bases, variogram: SPHERICAL, regularization: 0.0 }
}

fn number<T>(result: Result<T>) -> u8 {
    result.err().map_or(0, |error| error.number)
}

#[test]
fn fit_between_two_wells() {
    let fit = universal_kriging_fit(&COORDS, &VALUES, &options(vec![DriftBasis::Constant]), &NODE, None, 0.0).unwrap();
    assert_eq!(fit.predicted, [4.0]);
    assert_eq!(fit.variance, [1.5]);
    assert_eq!(fit.multipliers, [0.5]);
    assert_eq!(fit.trend, [4.0]);
    assert_eq!(fit.weights, [0.5, 0.5]);
    assert_eq!(fit.verdicts, [0]);
}

#[test]
fn trend_of_one_well_and_without_a_node() {
    let constant = options(vec![DriftBasis::Constant]);
    let one = universal_kriging_fit(&COORDS[..2], &[5.0], &constant, &NODE, None, 0.0).unwrap();
    assert_eq!((one.multipliers, one.trend), (vec![1.0], vec![5.0]));
    let without = universal_kriging_fit(&COORDS, &VALUES, &constant, &[], None, 0.0).unwrap();
    assert_eq!((without.multipliers, without.trend), (vec![0.0], vec![4.0]));
}

/// Three wells on the plain 2 + 3 x - y, and the node at the first of them: the multipliers are zeros there, and the trend is the plain.
#[test]
fn trend_of_a_plain() {
    let wells = [0.0, 0.0, 1.0, 0.0, 0.0, 1.0];
    let fit = universal_kriging_fit(&wells, &[2.0, 5.0, 1.0], &options(vec![DriftBasis::Linear]), &wells[..2], None, 1e-9).unwrap();
    let near = |xs: &[f64], wanted: [f64; 3]| xs.len() == 3 && xs.iter().zip(wanted).all(|(x, y)| (x - y).abs() < 1e-14);
    assert!(near(&fit.multipliers, [0.0; 3]), "{:?}", fit.multipliers);
    assert!(near(&fit.trend, [2.0, 3.0, -1.0]), "{:?}", fit.trend);
}

/// The exported call, which is lent its areas: an area that is too short for the trend is 18, and leaves it; past the columns it is untouched.
#[test]
fn area_of_the_trend() {
    let fit = |model: u8, trend: &mut [f64]| {
        let [mut predicted, mut variance, mut multipliers] = [[-1.0; 2]; 3];
        let (mut work, mut verdicts, mut weights) = ([-1.0; 18], [99; 2], [-1.0; 2]);
        #[rustfmt::skip]
        let number = calls::fit(
            &VALUES, &COORDS, &[1], &[], model, 0.0, 1.0, 1.0, Variogram::SAME_SPOT, 0.0, &NODE, &[], 0.0,
            &mut work, &mut predicted, &mut variance, &mut verdicts, &mut weights, &mut multipliers, trend,
        );
        (number, predicted[0], multipliers)
    };
    let mut trend = [-1.0; 2];
    assert_eq!(fit(1, &mut trend[..0]), (18, -1.0, [-1.0; 2]));
    assert_eq!(fit(5, &mut trend), (100, -1.0, [-1.0; 2]));
    assert_eq!(trend, [-1.0; 2]);
    assert_eq!(fit(1, &mut trend), (0, 4.0, [0.5, -1.0]));
    assert_eq!(trend, [4.0, -1.0]);
}

/// The weights are halves by symmetry, so the variance is 2 g(1) - g(2) / 2, with g the variogram. A range of 0 is refused of Exponential alone.
#[test]
fn models_by_the_exponential() {
    let fit = |model, range| {
        let options = UniversalKrigingOptions { variogram: Variogram::new(model, 0.0, 1.0, range), ..options(vec![DriftBasis::Constant]) };
        universal_kriging_fit(&COORDS, &VALUES, &options, &NODE, None, 1e-9)
    };
    for (model, far) in [(VariogramModel::Exponential, (-2f64).exp()), (VariogramModel::Gaussian, (-4f64).exp())] {
        let answer = fit(model, 1.0).unwrap();
        assert!((answer.predicted[0] - 4.0).abs() < 1e-14);
        assert!((answer.variance[0] - (2.0 * (1.0 - (-1f64).exp()) - (1.0 - far) / 2.0)).abs() < 1e-14);
        let interpolator = KrigingInterpolator::new(KrigingType::Ordinary, Variogram::new(model, 0.0, 1.0, 1.0));
        assert!((interpolator.interpolate(&COORDS, &VALUES, &NODE, 2).unwrap().variances[0] - answer.variance[0]).abs() < 1e-14);
    }
    for range in [0.0, -0.0, -1.0] {
        assert_eq!(number(fit(VariogramModel::Exponential, range)), 12);
        assert_eq!(number(fit(VariogramModel::Gaussian, range)), 0);
        let interpolator = KrigingInterpolator::new(KrigingType::Ordinary, Variogram::new(VariogramModel::Exponential, 0.0, 1.0, range));
        assert_eq!(number(interpolator.interpolate(&COORDS, &VALUES, &NODE, 2)), 12);
    }
}

/// A node 1 m from both wells: with a same-spot distance of 1 it is at neither, and with the next number above 1 at both. 22's edges, and its order.
#[test]
fn same_spot_distance() {
    let fit = |model, range, spot| {
        let variogram = Variogram::new(model, 0.0, 1.0, range).with_same_spot(spot);
        universal_kriging_fit(&COORDS, &VALUES, &UniversalKrigingOptions { variogram, ..options(vec![DriftBasis::Constant]) }, &NODE, None, 0.0)
    };
    let linear = |spot| fit(VariogramModel::Linear, 2.0, spot);
    assert_eq!(linear(1.0).unwrap().variance, [0.5]);
    assert_eq!(linear(1.0 + f64::EPSILON).unwrap().variance, [0.0]);
    // Both are taken; the greatest has the two wells at one spot, and nothing tells them apart.
    assert_eq!((number(linear(2f64.powi(-52))), number(linear(f64::MAX))), (0, 19));
    for spot in [f64::from_bits(2f64.powi(-52).to_bits() - 1), 0.0, -0.0, -1.0, f64::INFINITY, f64::NAN] {
        assert_eq!(number(linear(spot)), 22);
        let variogram = Variogram::new(VariogramModel::Linear, 0.0, 1.0, 2.0).with_same_spot(spot);
        assert_eq!(number(KrigingInterpolator::new(KrigingType::Ordinary, variogram).interpolate(&COORDS, &VALUES, &NODE, 2)), 22);
    }
    assert_eq!(number(fit(VariogramModel::Linear, f64::NAN, 0.0)), 11);
    assert_eq!(number(fit(VariogramModel::Exponential, 0.0, 0.0)), 22);
    assert_eq!(number(fit(VariogramModel::Exponential, 0.0, 1.0)), 12);
}

#[test]
fn default_options() {
    let default = UniversalKrigingOptions::default();
    assert_eq!(default, UniversalKrigingOptions { regularization: 1e-10, ..options(vec![DriftBasis::Constant]) });
}

#[test]
fn interpolation_between_two_points() {
    let interpolator = KrigingInterpolator::new(KrigingType::Ordinary, SPHERICAL);
    let answer = interpolator.interpolate(&COORDS, &VALUES, &NODE, 2).unwrap();
    assert_eq!((answer.values[0], answer.variances[0]), (4.0, 1.5));
    assert_eq!(number(interpolator.interpolate(&COORDS, &VALUES, &NODE, 0)), 13);
}

#[test]
fn semivariogram_of_three_samples() {
    let bins = SemivariogramCalculator::calculate(&[0.0, 1.0, 2.0], &[0.0, 2.0, 4.0], 1, 2).unwrap();
    assert_eq!(bins, Semivariogram { distances: vec![1.5], semivariances: vec![4.0], counts: vec![3] });
    assert_eq!(number(SemivariogramCalculator::calculate(&[0.0, 1.0], &[0.0, 2.0], 1, usize::MAX)), 15);
}

/// Two columns that are one number short and one number long have together as many as they should; each is looked at.
#[test]
fn every_external_column_has_a_number_for_each_well() {
    let columns = |one: usize, other: usize| options(vec![DriftBasis::External(vec![1.0; one]), DriftBasis::External(vec![2.0; other])]);
    let fit = |options| number(universal_kriging_fit(&COORDS, &VALUES, &options, &NODE, Some(&[1.0, 2.0]), 0.0));
    assert_eq!(fit(columns(1, 3)), 6);
    assert_eq!(fit(columns(3, 1)), 6);
    assert_eq!(fit(columns(2, 2)), 19);
    assert_eq!(fit(UniversalKrigingOptions { regularization: -1.0, ..columns(1, 3) }), 5);
}

#[test]
fn node_externals_are_asked_for() {
    let external = options(vec![DriftBasis::External(vec![1.0, 1.0])]);
    assert_eq!(number(universal_kriging_fit(&COORDS, &VALUES, &external, &NODE, None, 0.0)), 8);
    assert_eq!(number(universal_kriging_fit(&COORDS, &VALUES, &external, &NODE, Some(&[1.0]), 0.0)), 0);
}

/// Past the limits the areas are not made longer, and it is 9.
#[test]
fn too_many() {
    let constant = options(vec![DriftBasis::Constant]);
    let fit = |n: usize, m: usize| number(universal_kriging_fit(&vec![0.5; 2 * n], &vec![1.0; n], &constant, &vec![0.0; 2 * m], None, 0.0));
    assert_eq!(fit(97, 1), 9);
    assert_eq!(fit(1, 101), 9);
    assert_eq!(fit(1, 100), 0);
    assert_eq!(number(KrigingInterpolator::new(KrigingType::Universal, SPHERICAL).interpolate(&[0.5; 194], &[1.0; 97], &NODE, 2)), 9);
    assert_eq!(number(SemivariogramCalculator::calculate(&[0.5; 194], &[1.0; 97], 2, 1)), 9);
}

#[test]
fn survey_file_there_and_back() {
    let survey = Survey {
        values: VALUES.to_vec(),
        coords: COORDS.to_vec(),
        bases: vec![4, 1],
        external: vec![0.25, -0.0],
        nodes: NODE.to_vec(),
        node_external: vec![7.0],
        variogram: Variogram::new(VariogramModel::Linear, 0.0, 2.0, 3.0),
        regularization: 1e-10,
        tolerance: 1e-6,
    };
    let file = survey_file::write(&survey).unwrap();
    assert_eq!(survey_file::read(&file).unwrap(), survey);
    assert_eq!(number(survey_file::read(&file[1..])), 16);
    let elsewhere = Survey { variogram: survey.variogram.with_same_spot(1.0), ..survey.clone() };
    assert_eq!(number(survey_file::write(&elsewhere)), 22);
    assert_eq!(number(survey_file::write(&Survey { coords: vec![], ..survey })), 1);
}

/// docs/REFERENCE.md, section 8: `| no. | when | kind | what to do |`.
#[test]
fn kinds_and_sentences_are_the_reference_s() {
    let text = std::fs::read_to_string(concat!(env!("CARGO_MANIFEST_DIR"), "/../../docs/REFERENCE.md")).unwrap();
    let mut numbers = vec![];
    for line in text.lines() {
        let cells: Vec<&str> = line.trim_matches('|').split(" | ").map(str::trim).collect();
        if let (Ok(number), [_, _, kind, sentence]) = (cells[0].parse::<u8>(), &cells[..]) {
            let error = Error::of(number).unwrap_err();
            assert_eq!((format!("{:?}", error.kind).as_str(), error.message()), (*kind, *sentence), "number {number}");
            numbers.push(number);
        }
    }
    assert!((1..=19).chain([22, 100]).all(|number| numbers.contains(&number)), "{numbers:?}");
}
