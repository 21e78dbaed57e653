//! How far the port's e^−u lies from the C library's, which is what Rust's `f64::exp` calls: over numbers of several scales, a line for each.
//! Lines `far NAME count same greatest u`, the greatest distance and its u by their patterns; then `at u port`, a sample.

extern "C" {
    fn nakwemol_exp_neg(u: f64) -> f64;
}

fn port(u: f64) -> f64 {
    // SAFETY: a number goes in and a number comes out; the function reads nothing else.
    unsafe { nakwemol_exp_neg(u) }
}

/// Numbers that are the same at each run (splitmix64).
struct Draw(u64);

impl Draw {
    fn next(&mut self) -> u64 {
        self.0 = self.0.wrapping_add(0x9e37_79b9_7f4a_7c15);
        let mut z = self.0;
        z = (z ^ (z >> 30)).wrapping_mul(0xbf58_476d_1ce4_e5b9);
        z = (z ^ (z >> 27)).wrapping_mul(0x94d0_49bb_1331_11eb);
        z ^ (z >> 31)
    }

    /// From 0 to 1.
    fn unit(&mut self) -> f64 {
        (self.next() >> 11) as f64 * 2f64.powi(-53)
    }

    fn between(&mut self, low: f64, high: f64, count: usize) -> Vec<f64> {
        (0..count).map(|_| low + (high - low) * self.unit()).collect()
    }
}

/// A number and the two beside it.
fn beside(u: f64) -> [f64; 3] {
    [f64::from_bits(u.to_bits() - 1), u, f64::from_bits(u.to_bits() + 1)]
}

fn scales() -> Vec<(&'static str, Vec<f64>)> {
    let mut draw = Draw(20261116);
    let powers = (0..200_000).map(|_| draw.unit() * 2f64.powi(-((draw.next() % 61) as i32))).collect();
    let grid = (1..35 * 512).flat_map(|i| beside(i as f64 / 512.0)).collect();
    vec![
        ("0 to 1", draw.between(0.0, 1.0, 200_000)),
        ("1 to 8", draw.between(1.0, 8.0, 200_000)),
        ("8 to 35", draw.between(8.0, 35.0, 200_000)),
        ("2^-60 to 1", powers),
        ("512ths to 35 and beside them", grid),
        ("35 to 40", draw.between(35.0, 40.0, 100_000)),
        ("40 to 750", draw.between(40.0, 750.0, 50_000)),
    ]
}

fn main() {
    for (name, us) in scales() {
        let (mut same, mut greatest, mut at) = (0, -1.0, 0.0);
        for &u in &us {
            let (ours, library) = (port(u), (-u).exp());
            let distance = (ours - library).abs();
            same += usize::from(ours.to_bits() == library.to_bits());
            if distance > greatest {
                (greatest, at) = (distance, u);
            }
        }
        println!("far {name}; {} {same} {:016x} {:016x}", us.len(), greatest.to_bits(), at.to_bits());
        for &u in us.iter().step_by(us.len() / 600).chain([&at]) {
            println!("at {:016x} {:016x}", u.to_bits(), port(u).to_bits());
        }
    }
}
