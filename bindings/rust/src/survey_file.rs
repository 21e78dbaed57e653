//! The survey file: its reader and its writer.
use crate::{calls, Error, Result, Variogram, VariogramModel};

/// No file is longer than this.
const LONGEST: usize = 65_536;

/// What a survey file holds. The lists are those of `calls::fit`; nothing about them is judged but their lengths.
#[derive(Debug, Clone, PartialEq)]
pub struct Survey {
    pub values: Vec<f64>,
    pub coords: Vec<f64>,
    pub bases: Vec<u8>,
    pub external: Vec<f64>,
    pub nodes: Vec<f64>,
    pub node_external: Vec<f64>,
    pub variogram: Variogram,
    pub regularization: f64,
    pub tolerance: f64,
}

/// Reads a survey file: version 1 with any number of wells, version 2 with 49 to 96.
pub fn read(bytes: &[u8]) -> Result<Survey> {
    // A list of a file that is not malformed is no longer than the file.
    let numbers_most = LONGEST.min(bytes.len()) / 8;
    let area = || vec![0.0; numbers_most];
    let (mut values, mut coords, mut external, mut nodes, mut node_external) = (area(), area(), area(), area(), area());
    let mut bases = vec![0; LONGEST.min(bytes.len())];
    let (mut counts, mut numbers, mut model) = ([0; 3], [0.0; 5], 0);
    Error::of(calls::read(
        bytes,
        &mut values,
        &mut coords,
        &mut bases,
        &mut external,
        &mut nodes,
        &mut node_external,
        &mut counts,
        &mut numbers,
        &mut model,
    ))?;
    let [n, m, codes] = counts;
    let [nugget, sill, range, regularization, tolerance] = numbers;
    bases.truncate(codes);
    let k = bases.iter().filter(|&&code| code == 4).count();
    values.truncate(n);
    coords.truncate(2 * n);
    external.truncate(k * n);
    nodes.truncate(2 * m);
    node_external.truncate(k * m);
    let model = VariogramModel::of_code(model).expect("the reader tells 1 to 4");
    let variogram = Variogram::new(model, nugget, sill, range);
    Ok(Survey { values, coords, bases, external, nodes, node_external, variogram, regularization, tolerance })
}

/// Writes a survey file, with no note: version 2 from 49 to 96 wells, else version 1; more are refused by 16. A file has no place for the same-spot
/// distance: any but 2^-52 is refused by 22.
pub fn write(survey: &Survey) -> Result<Vec<u8>> {
    let mut file = vec![0; LONGEST];
    let mut length = 0;
    Error::of(calls::write(
        &survey.values,
        &survey.coords,
        &survey.bases,
        &survey.external,
        survey.variogram.model.code(),
        survey.variogram.nugget,
        survey.variogram.sill,
        survey.variogram.range,
        survey.variogram.same_spot,
        survey.regularization,
        &survey.nodes,
        &survey.node_external,
        survey.tolerance,
        &mut file,
        &mut length,
    ))?;
    file.truncate(length);
    Ok(file)
}
