//! What both sides are given: wells and nodes at random in a square of 3 km, in kilometres, the same in each run.

/// splitmix64: a fixed row of numbers that needs no library.
struct Draw(u64);

impl Draw {
    fn word(&mut self) -> u64 {
        self.0 = self.0.wrapping_add(0x9e37_79b9_7f4a_7c15);
        let x = (self.0 ^ (self.0 >> 30)).wrapping_mul(0xbf58_476d_1ce4_e5b9);
        let x = (x ^ (x >> 27)).wrapping_mul(0x94d0_49bb_1331_11eb);
        x ^ (x >> 31)
    }

    /// Below 1, with 53 digits.
    fn unit(&mut self) -> f64 {
        (self.word() >> 11) as f64 / (1u64 << 53) as f64
    }

    fn list(&mut self, count: usize, from: f64, span: f64) -> Vec<f64> {
        (0..count).map(|_| from + span * self.unit()).collect()
    }
}

/// Kinds of fits. `Whole` is what is measured; the others leave something out, so that their differences are the parts of a fit.
#[derive(Clone, Copy, PartialEq, Eq)]
pub enum Kind {
    /// A fit as it is used: t = 1e-9, and every node passes.
    Whole,
    /// t = 0: nearly every node misses the first row of its audit, and no further row is looked at.
    FirstRow,
    /// t = 1e-12: too little for sums with rounding to tell, so that every row is looked at by exact sums, and most are met.
    Exact,
    /// The matrix is all zeros, so the elimination stops at its first step: assembly and nothing after it.
    Stopped,
    /// The same, with wells so close that the variogram takes its short way out: what is left of an entry is its root.
    Near,
    /// The same, with all wells in one place: every root is that of 0, which takes no time.
    OnePlace,
    /// An answer area is too short, the last reason of all to refuse: what the refusals take. The original does not look at this.
    Refused,
}

impl Kind {
    pub const ALL: [Kind; 7] = [Kind::Whole, Kind::FirstRow, Kind::Exact, Kind::Stopped, Kind::Near, Kind::OnePlace, Kind::Refused];

    pub fn name(self) -> &'static str {
        match self {
            Kind::Whole => "whole",
            Kind::FirstRow => "first-row",
            Kind::Exact => "exact",
            Kind::Stopped => "stopped",
            Kind::Near => "near",
            Kind::OnePlace => "one-place",
            Kind::Refused => "refused",
        }
    }

    pub fn named(name: &str) -> Option<Kind> {
        Kind::ALL.into_iter().find(|kind| kind.name() == name)
    }

    /// A matrix of zeros has external columns of zeros, and no nodes.
    pub fn is_zero(self) -> bool {
        matches!(self, Kind::Stopped | Kind::Near | Kind::OnePlace)
    }

    pub fn nodes(self, m: usize) -> usize {
        if self.is_zero() { 0 } else { m }
    }
}

#[derive(Clone)]
pub struct Survey {
    pub kind: Kind,
    pub values: Vec<f64>,
    pub coords: Vec<f64>,
    pub bases: Vec<u8>,
    pub external: Vec<f64>,
    pub nodes: Vec<f64>,
    /// 1 Spherical, 2 Exponential, 3 Gaussian.
    pub model: u8,
    pub nugget: f64,
    pub sill: f64,
    pub range: f64,
    pub regularization: f64,
    pub tolerance: f64,
}

impl Survey {
    /// A fit of n wells and m nodes with p = 1 (Constant), 3 (Linear) or 6 columns (Quadratic).
    pub fn new(n: usize, p: usize, m: usize, kind: Kind) -> Survey {
        let mut draw = Draw(n as u64);
        let wells = draw.list(2 * n, 0.0, 3.0);
        let survey = Survey {
            kind,
            values: draw.list(n, 40.0, 20.0),
            coords: wells.into_iter().map(|x| placed(kind, x)).collect(),
            bases: vec![match p { 1 => 1, 3 => 2, _ => 3 }],
            external: Vec::new(),
            nodes: draw.list(2 * m, 0.0, 3.0),
            model: 1,
            nugget: 0.1,
            sill: 2.0,
            range: 1.0,
            regularization: 1e-10,
            tolerance: match kind { Kind::FirstRow => 0.0, Kind::Exact => 1e-12, _ => 1e-9 },
        };
        if kind.is_zero() { survey.of_zeros(p) } else { survey }
    }

    fn of_zeros(self, p: usize) -> Survey {
        let external = vec![0.0; p * self.n()];
        Survey { bases: vec![4; p], external, nugget: 0.0, sill: 0.0, regularization: 0.0, ..self }
    }

    /// The same with another model.
    pub fn with_model(self, model: u8) -> Survey {
        Survey { model, ..self }
    }

    pub fn n(&self) -> usize {
        self.values.len()
    }

    pub fn m(&self) -> usize {
        self.nodes.len() / 2
    }

    pub fn p(&self) -> usize {
        self.bases.iter().map(|code| match code { 2 => 3, 3 => 6, _ => 1 }).sum()
    }
}

fn placed(kind: Kind, x: f64) -> f64 {
    match kind {
        Kind::Near => x * 2f64.powi(-70),
        Kind::OnePlace => 1.0,
        _ => x,
    }
}

/// Numbers u for e^−u, as distances and ranges make them.
pub fn powers(count: usize) -> Vec<f64> {
    Draw(count as u64).list(count, 0.0, 6.0)
}

/// Two exact sums with every word above a place in common; there they differ, and in every word below. Place 67 is none: equal sums.
pub fn sums(place: usize) -> ([u64; 67], [u64; 67]) {
    let mut draw = Draw(67);
    let one: [u64; 67] = std::array::from_fn(|_| draw.word());
    let other = std::array::from_fn(|i| if i <= place && place < 67 { !one[i] } else { one[i] });
    (one, other)
}

/// Points, values and targets of the older calls, over two axes.
pub struct Samples {
    pub points: Vec<f64>,
    pub values: Vec<f64>,
    pub targets: Vec<f64>,
    pub nugget: f64,
    pub sill: f64,
    pub range: f64,
}

impl Samples {
    pub fn new(n: usize, m: usize) -> Samples {
        let Survey { values, coords, nodes, nugget, sill, range, .. } = Survey::new(n, 1, m, Kind::Whole);
        Samples { points: coords, values, targets: nodes, nugget, sill, range }
    }
}
