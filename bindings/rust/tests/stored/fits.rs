//! Every stored fit, by the exported call with the areas that its record lends, and by the safe one.
use crate::words::{holds, marked, same, Words, MARK_BYTE};
use nakwemol::{calls, universal_kriging_fit, DriftBasis, UniversalKrigingOptions, Variogram, VariogramModel};

/// A record of crates/vectors_fit/stdin: a fit, how much it lends of each area, and how it ends.
struct Record {
    values: Vec<f64>,
    coords: Vec<f64>,
    external: Vec<f64>,
    nodes: Vec<f64>,
    node_external: Vec<f64>,
    codes: Vec<u8>,
    model: u8,
    options: [f64; 6],
    lent: [usize; 7],
    number: u8,
    written: [usize; 7],
    work: Vec<u64>,
    predicted: Vec<u64>,
    variance: Vec<u64>,
    verdicts: Vec<u8>,
    weights: Vec<u64>,
    multipliers: Vec<u64>,
    trend: Vec<u64>,
}

fn next(words: &mut Words) -> Record {
    let [values, coords, external, nodes, node_external, codes] = words.counts();
    let model = words.word() as u8;
    let options = std::array::from_fn(|_| words.number());
    let lent = words.counts();
    let lists = (words.numbers(values), words.numbers(coords), words.numbers(external), words.numbers(nodes), words.numbers(node_external));
    let codes = words.bytes(codes);
    let number = words.word() as u8;
    let written: [usize; 7] = words.counts();
    let told = words.count();
    Record {
        values: lists.0,
        coords: lists.1,
        external: lists.2,
        nodes: lists.3,
        node_external: lists.4,
        codes,
        model,
        options,
        lent,
        number,
        written,
        work: words.words(told),
        predicted: words.words(written[1]),
        variance: words.words(written[2]),
        verdicts: words.bytes(written[3]),
        weights: words.words(written[4]),
        multipliers: words.words(written[5]),
        trend: words.words(written[6]),
    }
}

/// The exported call: its number, what it writes, and what it does not.
fn exported_agrees(r: &Record) -> bool {
    let [nugget, sill, range, same_spot, regularization, tolerance] = r.options;
    let [mut work, mut predicted, mut variance, mut weights, mut multipliers, mut trend] = [0, 1, 2, 4, 5, 6].map(|area| marked(r.lent[area]));
    let mut verdicts = vec![MARK_BYTE; r.lent[3]];
    let number = calls::fit(
        &r.values,
        &r.coords,
        &r.codes,
        &r.external,
        r.model,
        nugget,
        sill,
        range,
        same_spot,
        regularization,
        &r.nodes,
        &r.node_external,
        tolerance,
        &mut work,
        &mut predicted,
        &mut variance,
        &mut verdicts,
        &mut weights,
        &mut multipliers,
        &mut trend,
    );
    number == r.number
        && holds(&work, &r.work, r.written[0])
        && holds(&predicted, &r.predicted, r.written[1])
        && holds(&variance, &r.variance, r.written[2])
        && verdicts.starts_with(&r.verdicts)
        && verdicts[r.written[3]..].iter().all(|&verdict| verdict == MARK_BYTE)
        && holds(&weights, &r.weights, r.written[4])
        && holds(&multipliers, &r.multipliers, r.written[5])
        && holds(&trend, &r.trend, r.written[6])
}

/// The bases of a record's codes with their columns, if they can be written so: every code is one, and the externals are as many as they should be.
fn bases(r: &Record) -> Option<Vec<DriftBasis>> {
    let n = r.values.len();
    let k = r.codes.iter().filter(|&&code| code == 4).count();
    if r.external.len() != k * n {
        return None;
    }
    let mut columns = (0..k).map(|c| r.external[c * n..(c + 1) * n].to_vec());
    let of_code = |&code: &u8| match code {
        1 => Some(DriftBasis::Constant),
        2 => Some(DriftBasis::Linear),
        3 => Some(DriftBasis::Quadratic),
        4 => Some(DriftBasis::External(columns.next()?)),
        _ => None,
    };
    r.codes.iter().map(of_code).collect()
}

/// The safe call, which lends areas of its own, so that 17 and 18 do not come up.
fn safe_agrees(r: &Record, drift_bases: Vec<DriftBasis>) -> bool {
    let [nugget, sill, range, same_spot, regularization, tolerance] = r.options;
    let variogram = Variogram::new(VariogramModel::of_code(r.model).expect("1 to 4"), nugget, sill, range).with_same_spot(same_spot);
    let options = UniversalKrigingOptions { drift_bases, variogram, regularization };
    match universal_kriging_fit(&r.coords, &r.values, &options, &r.nodes, Some(&r.node_external), tolerance) {
        Ok(fit) => {
            r.number == 0
                && same(&fit.predicted, &r.predicted)
                && same(&fit.variance, &r.variance)
                && same(&fit.multipliers, &r.multipliers)
                && same(&fit.trend, &r.trend)
                && same(&fit.weights, &r.weights)
                && fit.verdicts == r.verdicts
        }
        Err(error) => r.number == error.number,
    }
}

#[test]
fn stored_fits() {
    let mut words = Words::of("vectors_fit").expect("crates/vectors_fit/stdin");
    let (mut exported, mut safe) = (0, 0);
    while words.more() {
        let record = next(&mut words);
        exported += 1;
        assert!(exported_agrees(&record), "record {exported}: the exported call differs");
        let areas_too_short = record.number == 17 || record.number == 18;
        if let Some(drift_bases) = bases(&record).filter(|_| !areas_too_short) {
            safe += 1;
            assert!(safe_agrees(&record, drift_bases), "record {exported}: the safe call differs");
        }
    }
    println!("{exported} fits compared, {safe} of them by the safe call too");
    assert!(safe > 1000, "only {safe} fits by the safe call");
}
