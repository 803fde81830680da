// The same operations in Rust, with i128 and Euclid's algorithm as it stands, over the same samples.
use std::cmp::Ordering;
use std::time::Instant;

#[derive(Clone, Copy)]
struct Frac {
    numerator: i128,
    denominator: i128,
}

fn gcd(a: i128, b: i128) -> i128 {
    let (mut x, mut y) = (a.unsigned_abs(), b.unsigned_abs());
    while y != 0 {
        let rest = x % y;
        x = y;
        y = rest;
    }
    x as i128
}

impl Frac {
    fn new(numerator: i128, denominator: i128) -> Frac {
        let common = gcd(numerator, denominator);
        Frac { numerator: numerator / common, denominator: denominator / common }
    }

    fn add(self, other: Frac) -> Option<Frac> {
        let left = self.numerator.checked_mul(other.denominator)?;
        let right = other.numerator.checked_mul(self.denominator)?;
        Some(Frac::new(left.checked_add(right)?, self.denominator.checked_mul(other.denominator)?))
    }

    fn mul(self, other: Frac) -> Option<Frac> {
        Some(Frac::new(self.numerator.checked_mul(other.numerator)?, self.denominator.checked_mul(other.denominator)?))
    }

    fn mul_add(self, a: Frac, b: Frac) -> Option<Frac> {
        self.mul(a)?.add(b)
    }

    fn cmp(self, other: Frac) -> Option<Ordering> {
        let left = self.numerator.checked_mul(other.denominator)?;
        let right = other.numerator.checked_mul(self.denominator)?;
        Some(left.cmp(&right))
    }
}

struct Random(u64);

impl Random {
    fn word(&mut self) -> u64 {
        self.0 = self.0.wrapping_mul(6364136223846793005).wrapping_add(1442695040888963407);
        self.0 / 0x1_0000_0000
    }

    fn part(&mut self, end: u128) -> i128 {
        let mut number: u128 = 0;
        for _ in 0..4 {
            number = number.wrapping_mul(0x1_0000_0000).wrapping_add(u128::from(self.word()));
        }
        (number % end + 1) as i128
    }

    fn fraction(&mut self, end: u128) -> Frac {
        let numerator = self.part(end);
        let denominator = self.part(end);
        let negative = self.word() % 2 == 0;
        Frac::new(if negative { -numerator } else { numerator }, denominator)
    }
}

const SAMPLES: usize = 2048;
const ROUNDS: usize = 16;
const TIMES: usize = 15;

fn median(samples: &[[Frac; 3]], apply: impl Fn(&[Frac; 3]) -> i128) -> u128 {
    let mut times = Vec::new();
    for _ in 0..TIMES {
        let start = Instant::now();
        let mut kept = 0;
        for _ in 0..ROUNDS {
            for sample in samples {
                kept ^= apply(std::hint::black_box(sample));
            }
        }
        std::hint::black_box(kept);
        times.push(start.elapsed().as_nanos() * 10 / (SAMPLES * ROUNDS) as u128);
    }
    times.sort();
    times[TIMES / 2]
}

fn line(name: &str, samples: &[[Frac; 3]]) {
    let numerator = |value: Option<Frac>| value.map_or(0, |q| q.numerator);
    let add = median(samples, |s| numerator(s[0].add(s[1])));
    let mul = median(samples, |s| numerator(s[0].mul(s[1])));
    let mul_add = median(samples, |s| numerator(s[0].mul_add(s[1], s[2])));
    let cmp = median(samples, |s| s[0].cmp(s[1]).map_or(0, |o| o as i128));
    println!("{name}: {add}, {mul}, {mul_add}, {cmp}");
}

fn main() {
    let whole = |end: u128| {
        let mut random = Random(1);
        (0..SAMPLES).map(|_| [(); 3].map(|_| Frac::new(random.part(end), 1))).collect::<Vec<_>>()
    };
    let fractions = |end: u128| {
        let mut random = Random(1);
        (0..SAMPLES).map(|_| [(); 3].map(|_| random.fraction(end))).collect::<Vec<_>>()
    };
    println!("samples: add, mul, mul_add, cmp in tenths of a nanosecond");
    line("whole numbers below 2^31", &whole(0x7fff_ffff));
    line("8 bits", &fractions(0xff));
    line("31 bits", &fractions(0x7fff_ffff));
    line("60 bits", &fractions(0xfff_ffff_ffff_ffff));
    line("120 bits", &fractions(0xff_ffff_ffff_ffff_ffff_ffff_ffff_ffff));
}
