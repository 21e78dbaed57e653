// crates/vectors_ieee: answers of Rust's own functions on f64, always the same ones, on standard output. ieee.py builds and feeds it.
//
// A record is eight little-endian words of 64 bits: what is called, x, y, four zeros, and Rust's answer.
//
//     1  sqrt      the lines of standard input, `<pattern in> <pattern out>`
//     2  floor     3  abs     6  is_finite, 1 or 0
//     4  max       5  min     no pair whose y is a NaN, and no two zeros: there the port's answer is y, and Rust's is x or not said
use std::io::{BufRead, Write};

const NAN: u64 = 0x7ff8_0000_0000_0000;
const INFINITY: u64 = 0x7ff0_0000_0000_0000;
const MINUS: u64 = 1 << 63;
const HIDDEN: u64 = 1 << 52;

// Every NaN is written as one. The test is on the pattern: rustc may drop one on the float, since an operation's NaN may have any pattern.
fn pattern(x: f64) -> u64 {
    let p = x.to_bits();
    if p & !MINUS > INFINITY { NAN } else { p }
}

// xorshift64 with a fixed start.
struct Random(u64);

impl Random {
    fn next(&mut self) -> u64 {
        self.0 ^= self.0 << 13;
        self.0 ^= self.0 >> 7;
        self.0 ^= self.0 << 17;
        self.0
    }

    fn fraction(&mut self) -> u64 {
        self.next() >> 12
    }

    // Any finite number, each exponent alike.
    fn finite(&mut self) -> u64 {
        let sign = self.next() & MINUS;
        sign | self.next() % 2047 * HIDDEN | self.fraction()
    }
}

fn write(out: &mut dyn Write, call: u64, x: u64, y: u64, answer: u64) {
    for word in [call, x, y, 0, 0, 0, 0, answer] {
        out.write_all(&word.to_le_bytes()).unwrap();
    }
}

// A pattern with the two next to it, and the three with the other sign.
fn beside(p: u64) -> Vec<u64> {
    let near = [p.saturating_sub(1), p, p + 1];
    near.iter().flat_map(|q| [*q, *q | MINUS]).collect()
}

// What is not finite, both zeros, the ends of the subnormal and of the normal range.
fn edges() -> Vec<u64> {
    let mut all = vec![NAN];
    for p in [0, 1, HIDDEN - 1, HIDDEN, INFINITY - 1, INFINITY] {
        all.extend([p, p | MINUS]);
    }
    all
}

// Whole numbers and halves with their neighbours, and every exponent from 2^-4 to 2^56, where the digits of a fraction run out.
fn about_whole(random: &mut Random) -> Vec<u64> {
    let mut all = Vec::new();
    for whole in [1.0, 2.0, 3.0, 4.0, 7.0, 10.0, 1023.0, 4503599627370495.0, 4503599627370496.0, 9007199254740991.0, 9007199254740992.0] {
        all.extend(beside(f64::to_bits(whole)));
        all.extend(beside(f64::to_bits(whole - 0.5)));
    }
    for exponent in 1019..1080 {
        for _ in 0..4 {
            let p = exponent * HIDDEN | random.fraction();
            all.extend([p, p | MINUS]);
        }
        // a whole number with this exponent, where there is one: the fraction is cleared
        let p = exponent * HIDDEN | random.fraction();
        let whole = f64::from_bits(p).trunc().to_bits();
        all.extend([whole, whole | MINUS]);
    }
    all
}

fn main() {
    let mut out = std::io::BufWriter::new(std::io::stdout().lock());
    for line in std::io::stdin().lock().lines() {
        let line = line.unwrap();
        let (x, root) = line.split_once(' ').unwrap();
        let (x, root) = (u64::from_str_radix(x, 16).unwrap(), u64::from_str_radix(root, 16).unwrap());
        assert_eq!(pattern(f64::from_bits(x).sqrt()), root);
        write(&mut out, 1, x, 0, root);
    }
    let mut random = Random(20260820);
    let mut numbers = edges();
    numbers.extend((0..150).map(|_| random.finite()));
    for x in about_whole(&mut random).into_iter().chain(numbers.iter().copied()) {
        write(&mut out, 2, x, 0, pattern(f64::from_bits(x).floor()));
    }
    for &x in &numbers {
        write(&mut out, 3, x, 0, pattern(f64::from_bits(x).abs()));
        write(&mut out, 6, x, 0, f64::from_bits(x).is_finite() as u64);
    }
    let mut pairs: Vec<(u64, u64)> = edges().iter().flat_map(|&x| edges().into_iter().map(move |y| (x, y))).collect();
    for _ in 0..60 {
        let x = random.finite();
        pairs.extend([(x, random.finite()), (x, x), (x, x ^ MINUS), (x, x ^ 1)]);
    }
    for (x, y) in pairs {
        let (a, b) = (f64::from_bits(x), f64::from_bits(y));
        if b.is_nan() || (a == 0.0 && b == 0.0) {
            continue;
        }
        write(&mut out, 4, x, y, pattern(a.max(b)));
        write(&mut out, 5, x, y, pattern(a.min(b)));
    }
}
