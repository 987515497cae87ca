//! Compares the proved functions with plain Rust ones, written apart from them, on the same cases:
//! first that the answers agree, then how long each takes.
use std::hint::black_box;
use std::process::ExitCode;
use std::time::Instant;

mod plain;

unsafe extern "C" {
    safe fn residue_chain(p: u64, a: u32, b: u32, n: u64) -> u64;
    safe fn polynomial_chain(f: u64, a: u64, b: u64, n: u64) -> u64;
    safe fn count_chain(a: u64, b: u64, n: u64) -> u64;
    safe fn polynomial_power(f: u64, x: u64, n: u64) -> u64;
    safe fn plan_checksum(method: u64, width: u64, n: u64) -> u64;
    safe fn place_longest(counted: u8, cells: u8) -> u64;
}

/// Random numbers: a 64-bit linear congruence whose high bits are mixed in.
struct Random(u64);

impl Random {
    fn next(&mut self) -> u64 {
        self.0 = self.0.wrapping_mul(6364136223846793005).wrapping_add(1442695040888963407);
        (self.0 ^ self.0 >> 33).wrapping_mul(0xff51_afd7_ed55_8ccd) ^ self.0 >> 29
    }

    /// A number of a random width up to this one, so that small ones are as frequent as large ones.
    fn of_width_to(&mut self, width: u64) -> u64 {
        let n = self.next();
        n >> (64 - width + self.next() % width)
    }

    /// One of the ends of a range, or a number of any width up to this one.
    fn with_ends(&mut self, ends: &[u64], width: u64) -> u64 {
        match self.next() % 4 {
            0 => ends[(self.next() % ends.len() as u64) as usize],
            _ => self.of_width_to(width),
        }
    }

    /// A number below the bound, or now and then one that is not.
    fn mostly_below(&mut self, bound: u64) -> u64 {
        match self.next() % 16 {
            0 => self.of_width_to(64),
            1 => bound - 1,
            _ => self.next() % bound,
        }
    }
}

const CASES: u64 = 200_000;
const PLANS: usize = 90_000;
const MODULI: [u64; 8] = [0, 1, 2, 3, 0xffff_fffe, 0xffff_ffff, 0x1_0000_0000, u64::MAX];
const REGISTERS: [u64; 10] =
    [0, 1, 2, 3, 0x13, 1 << 63, (1 << 63) - 1, (1 << 63) + 1, 0x8000_0000_0000_001b, u64::MAX];
const COUNTS: [u64; 6] = [0, 1, (1 << 63) - 2, (1 << 63) - 1, 1 << 63, u64::MAX];
const EXPONENTS: [u64; 10] = [0, 1, 2, 1024, 1025, 0xffff_ffff, 0x1_0000_0000, (1 << 63) - 1, 1 << 63, u64::MAX];

/// The methods by number, width, name, and how many bits their exponents have at most.
const METHODS: [(u64, u64, &str, u32); 9] = [
    (1, 0, "left to right", 63),
    (2, 0, "right to left", 63),
    (3, 0, "factor", 32),
    (4, 1, "digits of 1 bit", 63),
    (4, 2, "digits of 2 bits", 63),
    (4, 3, "digits of 3 bits", 63),
    (4, 4, "digits of 4 bits", 63),
    (4, 5, "digits of 5 bits", 63),
    (5, 0, "tree", 10),
];

/// Goes through what the proved function and the plain one answered to each case. Prints how many differ.
fn compare(name: &str, answers: impl Iterator<Item = (u64, u64)>) -> bool {
    let (mut cases, mut differ, mut refused) = (0, 0, 0);
    for (proved, plain) in answers {
        cases += 1;
        differ += (proved != plain) as u64;
        refused += (plain == plain::REFUSED) as u64;
    }
    println!("{name:18} {cases:7} cases, {refused:6} of them refused, {differ} differ");
    differ == 0
}

/// The same on random cases.
fn compare_random(name: &str, case: impl Fn(&mut Random) -> (u64, u64)) -> bool {
    let mut random = Random(1);
    compare(name, (0..CASES).map(|_| case(&mut random)))
}

fn plan_both(method: u64, width: u64, n: u64) -> (u64, u64) {
    (plan_checksum(method, width, n), plain::plan_checksum(method, width, n))
}

fn word_limit(f: u64) -> u64 {
    1 << f.max(2).ilog2()
}

fn compare_all() -> bool {
    let residues = compare_random("residue_chain", |r| {
        let p = r.with_ends(&MODULI, 33);
        let bound = p.clamp(2, 0xffff_ffff);
        let (a, b, n) = (r.mostly_below(bound) as u32, r.mostly_below(bound) as u32, r.next() % 4);
        (residue_chain(p, a, b, n), plain::residue_chain(p, a, b, n))
    });
    let polynomials = compare_random("polynomial_chain", |r| {
        let f = r.with_ends(&REGISTERS, 64);
        let limit = word_limit(f);
        let (a, b, n) = (r.mostly_below(limit), r.mostly_below(limit), r.next() % 4);
        (polynomial_chain(f, a, b, n), plain::polynomial_chain(f, a, b, n))
    });
    let counts = compare_random("count_chain", |r| {
        let (a, b, n) = (r.with_ends(&COUNTS, 64), r.with_ends(&COUNTS, 64), r.next() % 4);
        (count_chain(a, b, n), plain::count_chain(a, b, n))
    });
    let powers = compare_random("polynomial_power", |r| {
        let f = r.with_ends(&REGISTERS, 64);
        let (x, n) = (r.mostly_below(word_limit(f)), r.with_ends(&EXPONENTS, 64));
        (polynomial_power(f, x, n), plain::polynomial_power(f, x, n))
    });
    let small = METHODS.iter().flat_map(|m| (0..=1026).map(|n| plan_both(m.0, m.1, n)));
    let small = compare("plans up to 1,026", small);
    let mut r = Random(2);
    let plans = (0..PLANS).map(|i| {
        let (method, width, _, bits) = METHODS[i % METHODS.len()];
        let width = if r.next() % 32 == 0 { r.next() % 8 } else { width };
        plan_both(method, width, r.with_ends(&EXPONENTS, bits as u64 + 1))
    });
    let plans = compare("plans", plans);
    let pairs = (0..=255).flat_map(|counted| (0..=255).map(move |cells| (counted, cells)));
    let places = compare("place_longest", pairs.map(|(h, c)| (place_longest(h, c), plain::place_longest(h, c))));
    residues && polynomials && counts && powers && small && plans && places
}

/// Nanoseconds a unit of work, the best of nine runs of each, taken in turn.
fn time_both(units: u64, proved: impl Fn() -> u64, plain: impl Fn() -> u64) -> (f64, f64) {
    let once = |run: &dyn Fn() -> u64| {
        let start = Instant::now();
        black_box(run());
        start.elapsed().as_nanos() as f64 / units as f64
    };
    let best = (f64::INFINITY, f64::INFINITY);
    (0..9).fold(best, |best, _| (best.0.min(once(&proved)), best.1.min(once(&plain))))
}

/// A time in nanoseconds, or from a microsecond on in those.
fn shown(time: f64) -> String {
    if time < 1000.0 { format!("{time:>9.2} ns") } else { format!("{:>9.2} us", time / 1000.0) }
}

fn row(what: &str, units: u64, proved: impl Fn() -> u64, plain: impl Fn() -> u64) {
    let (proved, plain) = time_both(units, proved, plain);
    println!("{what:54} {} {} {:>6.2}", shown(proved), shown(plain), proved / plain);
}

fn time_products() {
    let n = black_box(300_000);
    for p in [101, 0xffff_fffb] {
        let p = black_box(p);
        row(&format!("a product of residues modulo {p}"), n, || residue_chain(p, 5, 7, n), || plain::residue_chain(p, 5, 7, n));
    }
    for f in [0x13, 0x1_0000_008d, 0x8000_0000_0000_0003] {
        let (f, a, b) = (black_box(f), 0x1234_5678_9abc_def1 % word_limit(f), 0x0fed_cba9_8765_4321 % word_limit(f));
        row(&format!("a product of polynomials modulo hex {f:x}"), n, || polynomial_chain(f, a, b, n), || plain::polynomial_chain(f, a, b, n));
    }
    row("a product of counts", n, || count_chain(1, 3, n), || plain::count_chain(1, 3, n));
}

fn time_powers() {
    let f = black_box(0x8000_0000_0000_0003);
    for (name, n) in [("2^62 - 57", (1 << 62) - 57), ("2^50", 1 << 50)] {
        let proved = || (1..=1000).fold(0, |all, x| all ^ polynomial_power(f, x, n));
        let plain = || (1..=1000).fold(0, |all, x| all ^ plain::polynomial_power(f, x, n));
        row(&format!("power {name} modulo hex {f:x}"), 1000, proved, plain);
    }
}

fn time_plans() {
    let mut r = Random(3);
    for (method, width, name, bits) in METHODS {
        let numbers: Vec<u64> = (0..2000).map(|_| (1 << (bits - 1)) | r.next() >> (65 - bits)).collect();
        let proved = || numbers.iter().fold(0, |all, n| all ^ plan_checksum(method, width, *n));
        let plain = || numbers.iter().fold(0, |all, n| all ^ plain::plan_checksum(method, width, *n));
        row(&format!("a plan by {name}, exponents of {bits} bits"), 2000, proved, plain);
    }
    for counted in [64, 128] {
        let counted = black_box(counted);
        let need = plain::place_longest(counted, 129);
        let proved = || (0..2000).fold(0, |all, _| all ^ place_longest(black_box(counted), 129));
        let plain = || (0..2000).fold(0, |all, _| all ^ plain::place_longest(black_box(counted), 129));
        row(&format!("placing a plan of 128 steps into {need} cells"), 2000, proved, plain);
    }
}

fn time_all() {
    println!("\n{:54} {:>12} {:>12} {:>6}", "", "proved", "plain", "ratio");
    time_products();
    time_powers();
    time_plans();
}

fn main() -> ExitCode {
    if !compare_all() {
        return ExitCode::FAILURE;
    }
    time_all();
    ExitCode::SUCCESS
}
