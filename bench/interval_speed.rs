// Times the same operations on the same numbers as the program `speed`, in plain Rust with no proof and the formulas
// written straight: rustc -O -C overflow-checks=off bench/interval_speed.rs -o /tmp/plain && /tmp/plain ROUNDS
// The sums must be those that `speed` prints. The rows `..ByTable` take the guesses of `root_bounds` from its own files,
// which are plain Rust too, with a test written here.
use std::time::Instant;

#[path = "../crates/root_bounds/src/near_cube.rt"]
mod near_cube;
#[path = "../crates/root_bounds/src/near_square.rt"]
mod near_square;
#[path = "../crates/root_bounds/src/tables.rt"]
mod tables;
#[path = "../crates/root_bounds/src/words.rt"]
mod words;

#[derive(Clone, Copy)]
struct Iv<const UNIT: i128> {
    lo: i128,
    hi: i128,
}

fn floor(z: i128, n: i128) -> i128 {
    z.div_euclid(n)
}

fn ceil(z: i128, n: i128) -> i128 {
    -(-z).div_euclid(n)
}

impl<const UNIT: i128> Iv<UNIT> {
    fn of_ratio(p: i128, q: i128) -> Self {
        Iv { lo: floor(p * UNIT, q), hi: ceil(p * UNIT, q) }
    }
    fn add(self, b: Self) -> Self {
        Iv { lo: self.lo + b.lo, hi: self.hi + b.hi }
    }
    fn sub(self, b: Self) -> Self {
        Iv { lo: self.lo - b.hi, hi: self.hi - b.lo }
    }
    fn corners(self, b: Self) -> [i128; 4] {
        [self.lo * b.lo, self.lo * b.hi, self.hi * b.lo, self.hi * b.hi]
    }
    fn mul(self, b: Self) -> Self {
        let c = self.corners(b);
        let least = c[0].min(c[1]).min(c[2].min(c[3]));
        let greatest = c[0].max(c[1]).max(c[2].max(c[3]));
        Iv { lo: floor(least, UNIT), hi: ceil(greatest, UNIT) }
    }
    fn div(self, b: Self) -> Self {
        let (x, y) = (self.lo * UNIT, self.hi * UNIT);
        let low = floor(x, b.lo).min(floor(x, b.hi)).min(floor(y, b.lo).min(floor(y, b.hi)));
        let high = ceil(x, b.lo).max(ceil(x, b.hi)).max(ceil(y, b.lo).max(ceil(y, b.hi)));
        Iv { lo: low, hi: high }
    }
    fn square(self) -> Self {
        let size = self.abs();
        Iv { lo: floor(size.lo * size.lo, UNIT), hi: ceil(size.hi * size.hi, UNIT) }
    }
    fn scale_by(self, k: i128) -> Self {
        let (x, y) = (self.lo * k, self.hi * k);
        Iv { lo: x.min(y), hi: x.max(y) }
    }
    fn ratio_up(self, num: i128, den: i128) -> Self {
        Iv { lo: floor(self.lo * num, den), hi: ceil(self.hi * num, den) }
    }
    fn abs(self) -> Self {
        let (x, y) = (self.lo.abs(), self.hi.abs());
        Iv { lo: if self.lo <= 0 && 0 <= self.hi { 0 } else { x.min(y) }, hi: x.max(y) }
    }
    fn cut_low(self, k: i128) -> Self {
        Iv { lo: self.lo.max(k * UNIT), hi: self.hi.max(k * UNIT) }
    }
    fn cut_high(self, k: i128) -> Self {
        Iv { lo: self.lo.min(k * UNIT), hi: self.hi.min(k * UNIT) }
    }
    fn hull(self, b: Self) -> Self {
        Iv { lo: self.lo.min(b.lo), hi: self.hi.max(b.hi) }
    }
    fn sqrt(self, root: impl Fn(u128) -> (u128, bool)) -> Self {
        roots(self.lo * UNIT, self.hi * UNIT, root)
    }
    fn cbrt(self, root: impl Fn(u128) -> (u128, bool)) -> Self {
        roots(self.lo * (UNIT * UNIT), self.hi * (UNIT * UNIT), root)
    }
    // 1 / (1 + q + sqrt(q^2 + 2q)), by the operations.
    fn reflect(self, root: impl Fn(u128) -> (u128, bool)) -> Self {
        let one = Iv { lo: UNIT, hi: UNIT };
        one.div(one.add(self).add(self.square().add(self.scale_by(2)).sqrt(root)))
    }
    // The same in words, for q from 0 to 100: each quotient is a guess that is mended.
    fn reflect_by_guess(self, root: impl Fn(u128) -> (u128, bool)) -> Self {
        let unit = UNIT as u64;
        let square = u128::from(unit) * u128::from(unit);
        let (low, high) = (self.lo as u64, self.hi as u64);
        let power = |q: u64| u128::from(q) * u128::from(q);
        let radicand = |q: u64, part: u128| (part + 2 * u128::from(q)) * u128::from(unit);
        let below = down(root(radicand(low, over_unit::<UNIT>(power(low))))) as u64;
        let rounded_up = over_unit::<UNIT>(power(high) + u128::from(unit - 1));
        let above = up(root(radicand(high, rounded_up))) as u64;
        let (first, last) = (unit + low + below, unit + high + above);
        let dividend = square + u128::from(first - 1);
        Iv {
            lo: quotient(square, last, unit + high - above) as i128,
            hi: quotient(dividend, first, (unit + low - below).wrapping_sub(1)) as i128,
        }
    }
    fn number(root: u128) -> Self {
        Iv { lo: root as i128, hi: 0 }
    }
}

// The nearest f64, or the one beside it: shorter than `x as f64`, and a guess needs no more.
fn near(x: u128) -> f64 {
    (x >> 64) as u64 as f64 * 18_446_744_073_709_551_616.0 + x as u64 as f64
}

// The square root rounded down, and whether it is exact: for x below 2^126. `u128::isqrt` takes longer, and so does
// `(x as f64).sqrt() as u128`.
fn sqrt(x: u128) -> (u128, bool) {
    sqrt_beside(near(x).sqrt() as i64 as u128, x)
}

fn isqrt(x: u128) -> (u128, bool) {
    let root = x.isqrt();
    (root, root * root == x)
}

fn sqrt_by_table(x: u128) -> (u128, bool) {
    sqrt_beside(near_square::near_square_root(x).into(), x)
}

fn sqrt_beside(mut root: u128, x: u128) -> (u128, bool) {
    let mut square = root * root;
    while square > x {
        square -= 2 * root - 1;
        root -= 1;
    }
    while x - square > 2 * root {
        square += 2 * root + 1;
        root += 1;
    }
    (root, square == x)
}

// The same of the cube root.
fn cbrt(x: u128) -> (u128, bool) {
    cbrt_beside(near(x).cbrt() as i64 as u128, x)
}

fn cbrt_by_table(x: u128) -> (u128, bool) {
    cbrt_beside(near_cube::near_cube_root(x).into(), x)
}

fn cbrt_beside(mut root: u128, x: u128) -> (u128, bool) {
    let mut cube = root * root * root;
    while cube > x {
        cube -= 3 * root * (root - 1) + 1;
        root -= 1;
    }
    while x - cube > 3 * root * (root + 1) {
        cube += 3 * root * (root + 1) + 1;
        root += 1;
    }
    (root, cube == x)
}

// The quotient rounded down, where `near` is this or one less.
fn quotient(z: u128, by: u64, near: u64) -> u128 {
    let (by, near) = (u128::from(by), u128::from(near));
    let product = near * by;
    if product <= z && z - product < 2 * by {
        near + u128::from(z - product >= by)
    } else {
        z / by
    }
}

// The quotient by the unit, rounded down.
fn over_unit<const UNIT: i128>(z: u128) -> u128 {
    let unit = UNIT as u64;
    if z >> 64 == 0 {
        return u128::from(z as u64 / unit);
    }
    let bits = 64 - unit.leading_zeros();
    let inverse = (1u128 << (bits + 63)) / u128::from(unit);
    let head = (z >> (bits - 10)) as u64;
    quotient(z, unit, (u128::from(head) * inverse >> 73) as u64)
}

// A root rounded down, and one rounded up.
fn down(root: (u128, bool)) -> u128 {
    root.0
}

fn up(root: (u128, bool)) -> u128 {
    root.0 + u128::from(!root.1)
}

// The roots of two ends rounded outwards: of equal ends one root is taken.
fn roots<const UNIT: i128>(low: i128, high: i128, root: impl Fn(u128) -> (u128, bool)) -> Iv<UNIT> {
    let below = root(low as u128);
    let above = if low == high { below } else { root(high as u128) };
    Iv { lo: down(below) as i128, hi: up(above) as i128 }
}

fn next(state: u64) -> u64 {
    state.wrapping_mul(6_364_136_223_846_793_005).wrapping_add(1_442_695_040_888_963_407)
}

fn interval<const UNIT: i128>(state: u64) -> Iv<UNIT> {
    let low = 1 + (state >> 24) % UNIT as u64;
    Iv { lo: low as i128, hi: (low + state % 8) as i128 }
}

// K/S between 0 and 30.
fn strength<const UNIT: i128>(state: u64) -> Iv<UNIT> {
    let low = (state >> 16) % (30 * UNIT as u64);
    Iv { lo: low as i128, hi: (low + state % 8) as i128 }
}

fn time<const UNIT: i128>(scale: &str, rounds: u32) {
    let mut pairs = Vec::new();
    let mut strengths = Vec::new();
    let mut state = 1;
    for _ in 0..1000 {
        let first = next(state);
        state = next(first);
        pairs.push((interval::<UNIT>(first), interval::<UNIT>(state)));
        strengths.push(strength::<UNIT>(first));
    }
    macro_rules! row_of {
        ($name:expr, $list:expr, $item:pat, $call:expr) => {
            let start = Instant::now();
            let mut sum = 0i128;
            for _ in 0..rounds {
                for $item in std::hint::black_box($list) {
                    let result = $call;
                    sum = sum.wrapping_add(result.lo).wrapping_add(result.hi);
                }
            }
            let took = start.elapsed().as_nanos() / u128::from(rounds).max(1);
            println!("{scale} {} {took} (sum {sum})", $name);
        };
    }
    macro_rules! row {
        ($name:expr, $a:ident, $b:ident, $call:expr) => {
            row_of!($name, &pairs, &($a, $b), {
                let _ = $b;
                $call
            });
        };
    }
    row!("Ends", a, b, a);
    row!("OfRatio", a, b, Iv::<UNIT>::of_ratio(a.lo, b.lo));
    row!("Add", a, b, a.add(b));
    row!("Sub", a, b, a.sub(b));
    row!("Mul", a, b, a.mul(b));
    row!("Div", a, b, a.div(b));
    row!("Square", a, b, a.square());
    row!("ScaleBy", a, b, a.scale_by(-116));
    row!("RatioUp", a, b, a.ratio_up(1_234_567, 7_654_321));
    row!("Abs", a, b, a.abs());
    row!("CutLow", a, b, a.cut_low(0));
    row!("CutHigh", a, b, a.cut_high(0));
    row!("Hull", a, b, a.hull(b));
    row!("SqrtIv", a, b, a.sqrt(sqrt));
    row!("CbrtIv", a, b, a.cbrt(cbrt));
    row!("SqrtIvByTable", a, b, a.sqrt(sqrt_by_table));
    row!("CbrtIvByTable", a, b, a.cbrt(cbrt_by_table));
    row!("SqrtIvByIsqrt", a, b, a.sqrt(isqrt));
    macro_rules! number_rows {
        ($floor:expr, $ceil:expr, $root:expr, $radicand:expr) => {
            row!($floor, a, b, Iv::<UNIT>::number(down($root($radicand(a)))));
            row!($ceil, a, b, Iv::<UNIT>::number(up($root($radicand(a)))));
        };
    }
    let times_unit = |a: Iv<UNIT>| (a.lo * UNIT) as u128;
    let times_square = |a: Iv<UNIT>| (a.lo * (UNIT * UNIT)) as u128;
    number_rows!("SqrtFloor", "SqrtCeil", sqrt, times_unit);
    number_rows!("CbrtFloor", "CbrtCeil", cbrt, times_square);
    number_rows!("SqrtFloorByTable", "SqrtCeilByTable", sqrt_by_table, times_unit);
    number_rows!("CbrtFloorByTable", "CbrtCeilByTable", cbrt_by_table, times_square);
    number_rows!("SqrtFloorByIsqrt", "SqrtCeilByIsqrt", isqrt, times_unit);
    row_of!("Reflect", &strengths, &q, q.reflect(sqrt));
    row_of!("ReflectByIsqrt", &strengths, &q, q.reflect(isqrt));
    row_of!("ReflectByGuess", &strengths, &q, q.reflect_by_guess(sqrt));
    row_of!("ReflectByGuessByTable", &strengths, &q, q.reflect_by_guess(sqrt_by_table));
}

fn main() {
    let rounds = std::env::args().nth(1).and_then(|word| word.parse().ok()).unwrap_or(1000);
    time::<1_000_000_000_000>("base", rounds);
    time::<100_000_000>("quick", rounds);
}
