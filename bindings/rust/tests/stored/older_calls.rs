//! Every stored interpolation and semivariogram, by the exported call with the areas that its record lends, and by the safe one.
use crate::words::{holds, mark, marked, same, Words};
use nakwemol::{calls, KrigingInterpolator, KrigingType, SemivariogramCalculator, Variogram, VariogramModel};

fn compare_interpolation(words: &mut Words) -> bool {
    let lengths: [usize; 3] = words.counts();
    let [kind, d] = words.counts();
    let model = words.word() as u8;
    let [nugget, sill, range, same_spot] = std::array::from_fn(|_| words.number());
    let lent: [usize; 3] = words.counts();
    let [values, points, targets] = lengths.map(|length| words.numbers(length));
    let number = words.word() as u8;
    let written: [usize; 3] = words.counts();
    let told = words.count();
    let [told_work, told_figures, told_variances] = [told, written[1], written[2]].map(|count| words.words(count));
    let [mut work, mut figures, mut variances] = lent.map(marked);
    #[rustfmt::skip]
    let given = calls::interpolate(
        &values, &points, &targets, d, kind as u8, model, nugget, sill, range, same_spot, &mut work, &mut figures, &mut variances,
    );
    let exported = given == number
        && holds(&work, &told_work, written[0])
        && holds(&figures, &told_figures, written[1])
        && holds(&variances, &told_variances, written[2]);
    let kriging_type = if kind == 1 { KrigingType::Ordinary } else { KrigingType::Universal };
    let variogram = Variogram::new(VariogramModel::of_code(model).expect("1 to 4"), nugget, sill, range).with_same_spot(same_spot);
    let safe = match KrigingInterpolator::new(kriging_type, variogram).interpolate(&points, &values, &targets, d) {
        _ if number == 17 || number == 18 => true,
        Ok(answer) => number == 0 && same(&answer.values, &told_figures) && same(&answer.variances, &told_variances),
        Err(error) => error.number == number,
    };
    exported && safe
}

fn compare_semivariogram(words: &mut Words) -> bool {
    let lengths: [usize; 2] = words.counts();
    let [d, n_bins] = words.counts();
    let lent: [usize; 3] = words.counts();
    let [values, points] = lengths.map(|length| words.numbers(length));
    let number = words.word() as u8;
    let told = words.count();
    let [told_distances, told_semivariances, told_counts] = [told; 3].map(|count| words.words(count));
    let [mut distances, mut semivariances] = [marked(lent[0]), marked(lent[1])];
    let mut counts: Vec<usize> = (0..lent[2]).map(|at| mark(at) as usize).collect();
    let mut kept = usize::MAX;
    let given = calls::semivariogram(&points, &values, d, n_bins, &mut distances, &mut semivariances, &mut counts, &mut kept);
    let counted = |counts: &[usize]| counts.iter().map(|&count| count as u64).eq(told_counts.iter().copied());
    let exported = given == number
        && kept == if number == 0 { told } else { usize::MAX }
        && holds(&distances, &told_distances, told)
        && holds(&semivariances, &told_semivariances, told)
        && counted(&counts[..told])
        && (told..counts.len()).all(|at| counts[at] == mark(at) as usize);
    let safe = match SemivariogramCalculator::calculate(&points, &values, d, n_bins) {
        _ if number == 18 => true,
        Ok(bins) => number == 0 && same(&bins.distances, &told_distances) && same(&bins.semivariances, &told_semivariances) && counted(&bins.counts),
        Err(error) => error.number == number,
    };
    exported && safe
}

/// Compares each record of a file, where this repository has it.
fn replay(name: &str, compare: fn(&mut Words) -> bool) {
    let Some(mut words) = Words::of(name) else {
        println!("crates/{name}/stdin is not there: nothing is compared");
        return;
    };
    let mut compared = 0;
    while words.more() {
        compared += 1;
        assert!(compare(&mut words), "{name}: record {compared} differs");
    }
    println!("{name}: {compared} compared");
}

#[test]
fn stored_interpolations() {
    replay("vectors_interpolator", compare_interpolation);
}

#[test]
fn stored_semivariograms() {
    replay("vectors_semivariogram", compare_semivariogram);
}
