// The calls that the oracle answers: a line in, a line out. Included below the original file's module.

use super::*;
use std::io::{BufRead, Write};
use std::panic::{catch_unwind, AssertUnwindSafe};

/// What a call cannot be put to the Rust with, since its types have no such value.
const NO_SUCH_CALL: &str = "shape";

/// A line that is no call stops the oracle: `panic` is an answer of the Rust's alone.
fn malformed(what: &str) -> ! {
    eprintln!("malformed call: {what}");
    std::process::exit(2)
}

struct Words<'a>(std::str::SplitWhitespace<'a>);

impl Words<'_> {
    fn next(&mut self) -> &str {
        self.0.next().unwrap_or_else(|| malformed("a word is missing"))
    }

    fn count(&mut self) -> usize {
        let word = self.next();
        word.parse().unwrap_or_else(|_| malformed(word))
    }

    fn float(&mut self) -> f64 {
        let word = self.next();
        match u64::from_str_radix(word, 16) {
            Ok(bits) if word.len() == 16 => f64::from_bits(bits),
            _ => malformed(word),
        }
    }

    fn floats(&mut self, count: usize) -> Vec<f64> {
        (0..count).map(|_| self.float()).collect()
    }

    fn list(&mut self) -> Vec<f64> {
        let count = self.count();
        self.floats(count)
    }

    fn variogram(&mut self) -> Variogram {
        let model = match self.count() {
            1 => VariogramModel::Spherical,
            2 => VariogramModel::Exponential,
            3 => VariogramModel::Gaussian,
            4 => VariogramModel::Linear,
            _ => malformed("a model is 1 to 4"),
        };
        let (nugget, sill, range) = (self.float(), self.float(), self.float());
        Variogram::new(model, nugget, sill, range)
    }
}

fn hex(x: f64) -> String {
    if x.is_nan() {
        "7ff8000000000000".to_string()
    } else {
        format!("{:016x}", x.to_bits())
    }
}

fn put<'a>(line: &mut String, numbers: impl Iterator<Item = &'a f64>) {
    for x in numbers {
        line.push(' ');
        line.push_str(&hex(*x));
    }
}

/// Rows of `columns` numbers; `None` where the numbers do not fill them.
fn rows(numbers: Vec<f64>, columns: usize) -> Option<Array2<f64>> {
    if columns == 0 || numbers.len() % columns != 0 {
        return None;
    }
    Array2::from_shape_vec((numbers.len() / columns, columns), numbers).ok()
}

/// The bases that the codes stand for: external columns one after another, n numbers each, the last one whatever is left.
fn drift_bases(codes: &[usize], external: &[f64], n: usize) -> Option<Vec<DriftBasis>> {
    let k = codes.iter().filter(|code| **code == 4).count();
    if k == 0 && !external.is_empty() {
        return None;
    }
    let mut column = 0;
    let mut bases = Vec::new();
    for code in codes {
        bases.push(match code {
            1 => DriftBasis::Constant,
            2 => DriftBasis::Linear,
            3 => DriftBasis::Quadratic,
            4 => {
                let start = (column * n).min(external.len());
                let end = if column + 1 == k { external.len() } else { (start + n).min(external.len()) };
                column += 1;
                DriftBasis::External(external[start..end].to_vec())
            }
            _ => return None,
        });
    }
    Some(bases)
}

fn fit(words: &mut Words) -> Option<String> {
    let values = Array1::from_vec(words.list());
    let coords = words.list();
    let codes: Vec<usize> = (0..words.count()).map(|_| words.count()).collect();
    let (external, nodes, node_external) = (words.list(), words.list(), words.list());
    let variogram = words.variogram();
    let regularization = words.float();
    let coords = rows(coords, 2)?;
    let nodes = rows(nodes, 2)?;
    let drift_bases = drift_bases(&codes, &external, values.len())?;
    let k = codes.iter().filter(|code| **code == 4).count();
    let node_external = if k > 0 { Some(rows(node_external, k)?) } else { None };
    let options = UniversalKrigingOptions { drift_bases, variogram, regularization };
    let node_view = node_external.as_ref().map(|array| array.view());
    Some(match universal_kriging_fit(coords.view(), values.view(), &options, nodes.view(), node_view) {
        Ok(result) => {
            let mut line = format!("ok {}", result.predicted.len());
            put(&mut line, result.predicted.iter());
            put(&mut line, result.variance.iter());
            line.push_str(&format!(" {}", result.drift_coefficients.len()));
            put(&mut line, result.drift_coefficients.iter());
            line
        }
        Err(kind) => format!("error {kind:?}"),
    })
}

fn interpolate(words: &mut Words) -> Option<String> {
    let kriging_type = match words.count() {
        1 => KrigingType::Ordinary,
        2 => KrigingType::Universal,
        _ => malformed("a kriging type is 1 or 2"),
    };
    let d = words.count();
    let values = Array1::from_vec(words.list());
    let (coords, targets) = (words.list(), words.list());
    let interpolator = KrigingInterpolator::new(kriging_type, words.variogram());
    let points = rows(coords, d)?;
    let targets = rows(targets, d)?;
    Some(match interpolator.interpolate(&points, &values.view(), &targets) {
        Ok(result) => {
            let mut line = format!("ok {}", result.values.len());
            put(&mut line, result.values.iter());
            put(&mut line, result.variances.iter());
            line
        }
        Err(kind) => format!("error {kind:?}"),
    })
}

fn calculate(words: &mut Words) -> Option<String> {
    let d = words.count();
    let values = Array1::from_vec(words.list());
    let coords = words.list();
    let bins = words.count();
    let points = rows(coords, d)?;
    Some(match SemivariogramCalculator::calculate(&points, &values.view(), bins) {
        Ok((distances, semivariances)) => {
            let mut line = format!("ok {}", distances.len());
            put(&mut line, distances.iter());
            put(&mut line, semivariances.iter());
            line
        }
        Err(kind) => format!("error {kind:?}"),
    })
}

/// The interpolator whose private methods are called: they read neither its type nor its variogram.
fn any_interpolator() -> KrigingInterpolator {
    let variogram = Variogram::new(VariogramModel::Spherical, 0.0, 1.0, 1.0);
    KrigingInterpolator::new(KrigingType::Ordinary, variogram)
}

fn inverse_line(inverse: Option<Array2<f64>>) -> String {
    match inverse {
        Some(inverse) => {
            let mut line = format!("ok {}", inverse.nrows());
            put(&mut line, inverse.iter());
            line
        }
        None => "none".to_string(),
    }
}

fn square(words: &mut Words) -> Array2<f64> {
    let size = words.count();
    let numbers = words.floats(size * size);
    Array2::from_shape_vec((size, size), numbers).unwrap_or_else(|_| malformed("size * size numbers"))
}

fn distance(words: &mut Words) -> String {
    let d = words.count();
    let a = Array1::from_vec(words.floats(d));
    let b = Array1::from_vec(words.floats(d));
    match any_interpolator().calculate_distance(&a.view(), &b.view()) {
        Ok(distance) => hex(distance),
        Err(kind) => format!("error {kind:?}"),
    }
}

fn distance2(words: &mut Words) -> String {
    let (ax, ay, bx, by) = (words.float(), words.float(), words.float(), words.float());
    let squared = squared_distance_2d(ax, ay, bx, by);
    format!("{} {}", hex(squared), hex(squared.sqrt()))
}

fn evaluate(words: &mut Words) -> String {
    let variogram = words.variogram();
    hex(variogram.evaluate(words.float()))
}

/// e^−u as the original is given it here, and as Rust's own `exp` has it.
fn exp_neg(words: &mut Words) -> String {
    let minus = -words.float();
    format!("{} {}", hex(minus.port_exp()), hex(minus.exp()))
}

/// The name of the call, after the same-spot distance, where one is named: the first build has none but its own, and is not asked for another.
fn name(words: &mut Words) -> String {
    let mut name = words.next().to_string();
    let mut distance = f64::EPSILON;
    if cfg!(same_spot) && name == "below" {
        distance = words.float();
        name = words.next().to_string();
    }
    crate::same_spot::set(distance);
    name
}

fn answer(line: &str) -> String {
    let mut words = Words(line.split_whitespace());
    let call = name(&mut words);
    let words = &mut words;
    let shaped = match call.as_str() {
        "fit" => fit(words),
        "interpolate" => interpolate(words),
        "calculate" => calculate(words),
        "evaluate" => Some(evaluate(words)),
        "distance" => Some(distance(words)),
        "distance2" => Some(distance2(words)),
        "exp_neg" => Some(exp_neg(words)),
        "sqrt" => Some(hex(words.float().sqrt())),
        "invert_uked" => Some(inverse_line(gauss_jordan_invert_uked(&square(words)))),
        "matrix_inverse" => Some(inverse_line(any_interpolator().matrix_inverse(&square(words)).ok())),
        other => malformed(other),
    };
    shaped.unwrap_or_else(|| NO_SUCH_CALL.to_string())
}

pub fn run() {
    std::panic::set_hook(Box::new(|_| {}));
    let stdout = std::io::stdout();
    let mut out = std::io::BufWriter::new(stdout.lock());
    for line in std::io::stdin().lock().lines() {
        let line = line.expect("a line of text");
        let text = catch_unwind(AssertUnwindSafe(|| answer(&line))).unwrap_or_else(|_| "panic".to_string());
        writeln!(out, "{text}").expect("standard output");
    }
}
