// Prints the tables of the guesses at roots (crates/root_bounds/src): on each interval from k/256 to (k+1)/256 the
// polynomial that meets the power v^(-1/root) at the Chebyshev nodes, lowered until it is nowhere above.
// rustc -O bench/root_tables.rs -o /tmp/tables && /tmp/tables

/// Samples of an interval, where the polynomial is compared with the power.
const SAMPLES: u32 = 64;

/// The coefficients in powers of 256 times the distance from the interval's beginning.
fn polynomial(power: impl Fn(f64) -> f64, k: u32, terms: usize) -> Vec<f64> {
    let at = |place: f64| power((f64::from(k) + place) / 256.0);
    let angle = |i: usize| std::f64::consts::PI * (2 * i + 1) as f64 / (2 * terms) as f64;
    let nodes: Vec<f64> = (0..terms).map(|i| (1.0 + angle(i).cos()) / 2.0).collect();
    // divided differences, then the powers of the distance
    let mut differences: Vec<f64> = nodes.iter().map(|&node| at(node)).collect();
    for step in 1..terms {
        for i in (step..terms).rev() {
            differences[i] = (differences[i] - differences[i - 1]) / (nodes[i] - nodes[i - step]);
        }
    }
    let mut coefficients = vec![0.0; terms];
    for i in (0..terms).rev() {
        for j in (1..terms).rev() {
            coefficients[j] = coefficients[j - 1] - nodes[i] * coefficients[j];
        }
        coefficients[0] = differences[i] - nodes[i] * coefficients[0];
    }
    let value = |place: f64| coefficients.iter().rev().fold(0.0, |sum, c| sum * place + c);
    let excess = (0..=SAMPLES)
        .map(|i| f64::from(i) / f64::from(SAMPLES))
        .map(|place| value(place) - at(place))
        .fold(f64::NEG_INFINITY, f64::max);
    coefficients[0] -= excess;
    coefficients
}

/// A number with its digits in threes.
fn grouped(number: u64) -> String {
    let digits = number.to_string();
    let first = (digits.len() - 1) % 3 + 1;
    let rest = digits.as_bytes()[first..].chunks(3).map(String::from_utf8_lossy);
    rest.fold(digits[..first].to_string(), |sum, three| sum + "_" + &three)
}

/// What the first coefficient is lowered by for the rounding of all.
const ROUNDING: u64 = 6;

/// The rows from `first`/256 to 1: the sizes of the coefficients, times these powers of two, with which each fits 32 bits.
fn table(root: f64, first: u32, terms: usize, powers: &[i32]) {
    for k in first..256 {
        let row: Vec<String> = polynomial(|v| v.powf(-1.0 / root), k, terms)
            .iter()
            .zip(powers)
            .enumerate()
            .map(|(i, (c, &power))| (c.abs() * 2f64.powi(power)) as u64 - if i == 0 { ROUNDING } else { 0 })
            .map(grouped)
            .collect();
        println!("[{}],", row.join(", "));
    }
}

fn main() {
    println!("square root: value, slope, bend");
    table(2.0, 64, 3, &[31, 37, 43]);
    println!("cube root: value, slope, bend, turn");
    table(3.0, 32, 4, &[31, 37, 43, 48]);
}
