//! Measures the original and the port in one process, on the same inputs, in turns. tools/bench builds it and reads what it prints.
//!
//!     bench                                     every measurement, a line each
//!     bench --one SIDE COUNT fit N P M KIND     COUNT fits of one side (original or port) and nothing else, for a profile
//!     bench --one SIDE COUNT interpolate N M TYPE
//!     bench --one SIDE COUNT semivariogram N
//!     bench --one port COUNT compare PLACE      the port's alone: the original has no exact sums

#[path = "../../bindings/rust/src/calls.rs"]
#[allow(dead_code)]
mod calls;
#[path = "../oracle/error.rs"]
mod error;
mod inputs;
mod port;
mod timing;

/// The original file, with its calls below it, so that its private functions are in reach.
mod kriging {
    include!(env!("BENCH_SOURCE"));

    pub mod original {
        include!("original.rs");
    }
}

use inputs::{Kind, Samples, Survey};
use kriging::original;
use std::hint::black_box;
use timing::{in_turns, Case};

const SIZES: [usize; 4] = [12, 24, 48, 96];
const COLUMNS: [usize; 3] = [1, 3, 6];
const NODES: [usize; 3] = [1, 25, 100];
const GROWTH_N: [usize; 10] = [12, 18, 24, 30, 36, 42, 48, 60, 72, 96];
const GROWTH_M: [usize; 6] = [1, 10, 25, 50, 75, 100];
const PARTS: [(usize, usize, usize); 6] = [(12, 1, 25), (24, 1, 100), (24, 6, 100), (48, 1, 100), (48, 6, 100), (96, 1, 100)];
const MODELS: [(usize, usize, usize); 7] = [(12, 1, 25), (12, 1, 100), (24, 1, 100), (48, 1, 1), (48, 1, 100), (48, 6, 100), (96, 1, 100)];
const POWERS: usize = 100;
const BINS: usize = 10;
const PLACES: [usize; 8] = [66, 60, 50, 40, 30, 20, 10, 0];
const EQUAL: usize = 67;

fn stop(what: &str) -> ! {
    eprintln!("{what}");
    std::process::exit(1)
}

fn same_bits(what: &str, ours: &[f64], theirs: &[f64]) {
    let bits = |list: &[f64]| list.iter().map(|x| x.to_bits()).collect::<Vec<_>>();
    if bits(ours) != bits(theirs) {
        stop(&format!("{what}: the port's answer has other bits than the original's"));
    }
}

/// Both sides answer the same bits, and every node passes its audit: else the times would be those of different work.
fn check_fit(survey: &Survey) {
    let what = format!("fit of n = {}, p = {}, m = {}", survey.n(), survey.p(), survey.m());
    let original = original::Fit::of(survey).answer().unwrap_or_else(|| stop(&format!("{what}: the original refuses")));
    let mut port = port::Fit::of(survey.clone());
    if port.call() != 0 {
        stop(&format!("{what}: the port refuses"));
    }
    same_bits(&what, &port.predicted, &original.predicted);
    same_bits(&what, &port.variance, &original.variance);
    same_bits(&what, &port.multipliers, &original.drift_coefficients);
    if port.verdicts.iter().any(|verdict| *verdict != 0) {
        stop(&format!("{what}: a node misses its audit"));
    }
}

/// Both sides answer nearly the same, and every node passes: with the C library's `exp` the original's last digits are others.
fn check_model(survey: &Survey) {
    let what = format!("fit of n = {}, p = {}, m = {}, model {}", survey.n(), survey.p(), survey.m(), survey.model);
    let original = original::Fit::of(survey).answer().unwrap_or_else(|| stop(&format!("{what}: the original refuses")));
    let mut port = port::Fit::of(survey.clone());
    if port.call() != 0 || port.verdicts.iter().any(|verdict| *verdict != 0) {
        stop(&format!("{what}: the port refuses, or a node misses its audit"));
    }
    if port.predicted.iter().zip(original.predicted.iter()).any(|(ours, theirs)| (ours - theirs).abs() > 1e-9) {
        stop(&format!("{what}: a figure is another than the original's"));
    }
}

/// A fit of both sides, which is not looked at: fits that leave something out are not answered alike.
fn timed_fit(what: String, survey: Survey) -> Case<'static> {
    let original = original::Fit::of(&survey);
    let mut port = port::Fit::of(survey);
    Case::new(what, move || black_box(&original).run(), move || black_box(&mut port).run())
}

fn fit(kind: &str, n: usize, p: usize, m: usize) -> Case<'static> {
    let survey = Survey::new(n, p, m, Kind::Whole);
    check_fit(&survey);
    timed_fit(format!("{kind} {n} {p} {m}"), survey)
}

fn fits() -> Vec<Case<'static>> {
    let sizes = SIZES.iter().flat_map(|n| COLUMNS.iter().flat_map(move |p| NODES.iter().map(move |m| (*n, *p, *m))));
    sizes.map(|(n, p, m)| fit("fit", n, p, m)).collect()
}

/// The same fits with each model by e^−u, and with the Spherical one.
fn models() -> Vec<Case<'static>> {
    let sizes = MODELS.iter().flat_map(|size| [1, 2, 3].map(|model| (*size, model)));
    let fit = |((n, p, m), model)| {
        let survey = Survey::new(n, p, m, Kind::Whole).with_model(model);
        check_model(&survey);
        timed_fit(format!("model {model} {n} {p} {m}"), survey)
    };
    sizes.map(fit).collect()
}

/// Some e^−u, one after another.
fn powers() -> Case<'static> {
    let (us, same) = (inputs::powers(POWERS), inputs::powers(POWERS));
    let (mut theirs, mut ours) = (vec![0.0; POWERS], vec![0.0; POWERS]);
    let original = move || original::powers(black_box(&us), &mut theirs);
    Case::new(format!("powers {POWERS}"), original, move || port::powers(black_box(&same), &mut ours))
}

fn growth() -> Vec<Case<'static>> {
    let with_n = |p| GROWTH_N.iter().map(move |n| fit("growth-n", *n, p, 100));
    let with_m = |p| GROWTH_M.iter().map(move |m| fit("growth-m", 48, p, *m));
    [1, 6].into_iter().flat_map(|p| with_n(p).chain(with_m(p))).collect()
}

fn interpolation(n: usize, m: usize, kriging_type: u8) -> Case<'static> {
    let what = format!("interpolation of n = {n}, m = {m}, type {kriging_type}");
    let samples = Samples::new(n, m);
    let original = original::Interpolation::of(&samples, kriging_type);
    let mut port = port::Interpolation::of(samples, kriging_type);
    let (values, variances) = original.answer().unwrap_or_else(|| stop(&format!("{what}: the original refuses")));
    if port.call() != 0 {
        stop(&format!("{what}: the port refuses"));
    }
    same_bits(&what, &port.figures, &values);
    same_bits(&what, &port.variances, &variances);
    let name = format!("interpolate {n} {m} {kriging_type}");
    Case::new(name, move || black_box(&original).run(), move || black_box(&mut port).run())
}

fn interpolations() -> Vec<Case<'static>> {
    let sizes = [1, 2].into_iter().flat_map(|code| SIZES.iter().flat_map(move |n| NODES.iter().map(move |m| (*n, *m, code))));
    sizes.map(|(n, m, code)| interpolation(n, m, code)).collect()
}

fn semivariogram(n: usize) -> Case<'static> {
    let what = format!("semivariogram of n = {n}");
    let samples = Samples::new(n, 0);
    let original = original::Semivariogram::of(&samples, BINS);
    let mut port = port::Semivariogram::of(samples, BINS);
    let (distances, semivariances) = original.answer().unwrap_or_else(|| stop(&format!("{what}: the original refuses")));
    if port.call() != 0 {
        stop(&format!("{what}: the port refuses"));
    }
    same_bits(&what, &port.distances[..port.kept], &distances);
    same_bits(&what, &port.semivariances[..port.kept], &semivariances);
    Case::new(format!("semivariogram {n}"), move || black_box(&original).run(), move || black_box(&mut port).run())
}

/// A comparison of two exact sums whose highest differing word stands at a place, beside that of equal sums, which looks at all 67 words.
fn comparison(place: usize) -> Case<'static> {
    let (sums, equal) = (port::Sums::differing(place), port::Sums::differing(EQUAL));
    let (order, words) = sums.told();
    if order == 1 || words != 67 - place || equal.told() != (1, 67) {
        stop(&format!("comparison at place {place}: {words} words, order {order}"));
    }
    Case::new(format!("compare {place}"), move || black_box(&equal).run(), move || black_box(&sums).run())
}

/// Fits that stop early or leave something out, whose differences are the parts of a fit. The last number is how many rows the audits look at.
fn parts() -> Vec<Case<'static>> {
    let mut cases = Vec::new();
    for (n, p, m) in PARTS {
        let kinds = Kind::ALL.into_iter().map(|kind| (kind, kind.nodes(m)));
        for (kind, m) in kinds.chain([(Kind::Whole, 0)]) {
            let survey = Survey::new(n, p, m, kind);
            let rows = port::Fit::of(Survey::new(n, p, m, kind)).rows();
            cases.push(timed_fit(format!("part {n} {p} {m} {} {rows}", kind.name()), survey));
        }
    }
    cases
}

fn number(words: &[String], at: usize) -> usize {
    words.get(at).and_then(|word| word.parse().ok()).unwrap_or_else(|| stop("a number is missing"))
}

fn repeat(count: usize, mut call: impl FnMut()) {
    for _ in 0..count {
        call();
    }
}

/// One side of one call, again and again: what a profile is taken of.
fn one(words: &[String]) {
    let port = words.first().map(String::as_str) == Some("port");
    let count = number(words, 1);
    match words.get(2).map(String::as_str) {
        Some("fit") => {
            let kind = Kind::named(words.get(6).map_or("whole", String::as_str)).unwrap_or_else(|| stop("no such kind of fit"));
            let survey = Survey::new(number(words, 3), number(words, 4), number(words, 5), kind);
            let (original, mut ours) = (original::Fit::of(&survey), port::Fit::of(survey));
            repeat(count, || if port { ours.run() } else { original.run() });
            eprintln!("rows {}", ours.rows());
        }
        Some("interpolate") => {
            let (samples, kind) = (Samples::new(number(words, 3), number(words, 4)), number(words, 5) as u8);
            let (original, mut ours) = (original::Interpolation::of(&samples, kind), port::Interpolation::of(samples, kind));
            repeat(count, || if port { ours.run() } else { original.run() });
        }
        Some("semivariogram") => {
            let samples = Samples::new(number(words, 3), 0);
            let (original, mut ours) = (original::Semivariogram::of(&samples, BINS), port::Semivariogram::of(samples, BINS));
            repeat(count, || if port { ours.run() } else { original.run() });
        }
        Some("compare") => {
            let sums = port::Sums::differing(number(words, 3));
            repeat(count, || sums.run());
        }
        _ => stop("one of: fit, interpolate, semivariogram, compare"),
    }
}

fn main() {
    let words: Vec<String> = std::env::args().skip(1).collect();
    if words.first().map(String::as_str) == Some("--one") {
        return one(&words[1..]);
    }
    let mut cases = fits();
    cases.extend(growth());
    cases.extend(interpolations());
    cases.extend(SIZES.map(semivariogram));
    cases.extend(parts());
    cases.extend(models());
    cases.push(powers());
    cases.extend(PLACES.map(comparison));
    in_turns(cases);
}
