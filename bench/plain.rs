//! The plain functions, written apart from the proved ones. A refused call answers `REFUSED`.
pub const REFUSED: u64 = u64::MAX;
const CAP: u64 = (1 << 63) - 1;

pub fn residue_chain(p: u64, a: u32, b: u32, n: u64) -> u64 {
    if !(2..1 << 32).contains(&p) || a as u64 >= p || b as u64 >= p {
        return REFUSED;
    }
    let mut product = a as u64;
    for _ in 0..n {
        product = product * b as u64 % p;
    }
    product
}

/// The product modulo f, from the highest bit of b down; a and b are below the degree of f.
fn polynomial_product(f: u64, a: u64, b: u64) -> u64 {
    let degree = f.ilog2();
    let mut product = 0;
    for place in (0..degree).rev() {
        product <<= 1;
        if product >> degree & 1 == 1 {
            product ^= f;
        }
        if b >> place & 1 == 1 {
            product ^= a;
        }
    }
    product
}

fn is_word(f: u64, x: u64) -> bool {
    x >> f.ilog2() == 0
}

pub fn polynomial_chain(f: u64, a: u64, b: u64, n: u64) -> u64 {
    if f < 2 || !is_word(f, a) || !is_word(f, b) {
        return REFUSED;
    }
    let mut product = a;
    for _ in 0..n {
        product = polynomial_product(f, product, b);
    }
    product
}

pub fn count_chain(a: u64, b: u64, n: u64) -> u64 {
    if a > CAP || b > CAP {
        return REFUSED;
    }
    let mut sum = a;
    for _ in 0..n {
        sum = sum.saturating_add(b).min(CAP);
    }
    sum
}

/// From the lowest bit of n up, so not in the order of the proved function.
pub fn polynomial_power(f: u64, x: u64, n: u64) -> u64 {
    if f < 2 || !is_word(f, x) || n == 0 || n > CAP {
        return REFUSED;
    }
    let mut power = None;
    let mut square = x;
    let mut left = n;
    loop {
        if left & 1 == 1 {
            power = Some(power.map_or(square, |p| polynomial_product(f, p, square)));
        }
        left >>= 1;
        if left == 0 {
            return power.unwrap();
        }
        square = polynomial_product(f, square, square);
    }
}

/// A step of a plan: the numbers of the two values it adds, and their sum.
#[derive(Clone, Copy, Default)]
struct Step {
    j: u16,
    k: u16,
    value: u64,
}

impl Step {
    fn new(j: usize, k: usize, value: u64) -> Step {
        Step { j: j as u16, k: k as u16, value }
    }
}

/// Each value is a front part of n, in binary.
fn left_to_right(n: u64, table: &mut [Step]) -> usize {
    let mut len = 0;
    for bit in (0..n.ilog2()).rev() {
        let front = n >> bit;
        table[len] = Step::new(len, len, front & !1);
        len += 1;
        if front & 1 == 1 {
            table[len] = Step::new(len, 0, front);
            len += 1;
        }
    }
    len
}

/// The values are powers of two, and back parts of n.
fn right_to_left(n: u64, table: &mut [Step]) -> usize {
    let top = n.ilog2();
    let (mut len, mut square_at, mut sum_at) = (0, 0, None);
    for bit in 0..=top {
        if n >> bit & 1 == 1 {
            sum_at = Some(match sum_at {
                None => square_at,
                Some(at) => {
                    table[len] = Step::new(square_at, at, n & (u64::MAX >> (63 - bit)));
                    len += 1;
                    len
                }
            });
        }
        if bit < top {
            table[len] = Step::new(square_at, square_at, 2 << bit);
            len += 1;
            square_at = len;
        }
    }
    len
}

fn smallest_divisor(n: u64) -> u64 {
    let mut d = 2;
    while d * d <= n {
        if n % d == 0 {
            return d;
        }
        d += 1;
    }
    n
}

/// The plan of n on top of value number `base`, which is `scale`. Answers the number of its last value.
fn factor(n: u64, scale: u64, base: usize, table: &mut [Step]) -> usize {
    if n == 1 {
        return base;
    }
    let p = smallest_divisor(n);
    if p < n {
        let middle = factor(p, scale, base, table);
        return factor(n / p, scale * p, middle, table);
    }
    let last = factor(n - 1, scale, base, table);
    table[last] = Step::new(last, base, n * scale);
    last + 1
}

fn digits(n: u64, width: u32, table: &mut [Step]) -> usize {
    let m = 1 << width;
    let mut len = 0;
    for value in 2..=n.min(m - 1) {
        table[len] = Step::new(len, 0, value);
        len += 1;
    }
    if n < m {
        return len;
    }
    let mut place = n.ilog2() / width * width;
    let mut value = n >> place;
    let mut at = value as usize - 1;
    while place > 0 {
        place -= width;
        for _ in 0..width {
            value *= 2;
            if value < m {
                at = value as usize - 1;
            } else {
                table[len] = Step::new(at, at, value);
                len += 1;
                at = len;
            }
        }
        let digit = n >> place & (m - 1);
        if digit > 0 {
            value += digit;
            table[len] = Step::new(at, digit as usize - 1, value);
            len += 1;
            at = len;
        }
    }
    len
}

/// The path from 1 to u by the parents: the last places of the buffer, from the answered one on.
fn path_to(u: u16, parents: &[u16; 1025], path: &mut [u16; 32]) -> usize {
    let (mut start, mut u) = (path.len(), u);
    while u > 0 {
        start -= 1;
        path[start] = u;
        u = parents[u as usize];
    }
    start
}

/// Grows the whole tree, and then reads the path to n.
fn tree(n: u64, table: &mut [Step], parents: &mut [u16; 1025]) -> usize {
    parents.fill(0);
    let mut order = [1u16; 1024];
    let (mut found, mut next) = (1, 0);
    let mut path = [0; 32];
    while found < order.len() {
        let u = order[next];
        next += 1;
        let start = path_to(u, parents, &mut path);
        for a in &path[start..] {
            let child = u + a;
            if child <= 1024 && parents[child as usize] == 0 {
                parents[child as usize] = u;
                order[found] = child;
                found += 1;
            }
        }
    }
    let start = path_to(n as u16, parents, &mut path);
    let path = &path[start..];
    for i in 1..path.len() {
        let summand = path[i] - path[i - 1];
        let k = path.iter().position(|a| *a == summand).unwrap();
        table[i - 1] = Step::new(i - 1, k, path[i] as u64);
    }
    path.len() - 1
}

fn plan(method: u64, width: u64, n: u64, table: &mut [Step], parents: &mut [u16; 1025]) -> Option<usize> {
    if n == 0 || n > CAP || table.len() < 128 {
        return None;
    }
    match (method, width) {
        (1, 0) => Some(left_to_right(n, table)),
        (2, 0) => Some(right_to_left(n, table)),
        (3, 0) if n < 1 << 32 => Some(factor(n, 1, 0, table)),
        (4, 1..=5) => Some(digits(n, width as u32, table)),
        (5, 0) if n <= 1024 => Some(tree(n, table, parents)),
        _ => None,
    }
}

fn checksum(steps: &[Step]) -> u64 {
    let mix = |sum: u64, s: &Step| sum.wrapping_mul(1000003).wrapping_add(s.value).wrapping_add((s.j as u64) << 16 | s.k as u64);
    steps.iter().fold(0, mix)
}

pub fn plan_checksum(method: u64, width: u64, n: u64) -> u64 {
    let mut table = [Step::default(); 128];
    let mut parents = [0; 1025];
    match plan(method, width, n, &mut table, &mut parents) {
        Some(len) => checksum(&table[..len]) >> 1,
        None => REFUSED,
    }
}

fn is_plan(n: u64, steps: &[Step]) -> bool {
    let value = |i: u16| if i == 0 { 1 } else { steps[i as usize - 1].value };
    steps.len() <= 128
        && (0..).zip(steps).all(|(i, s)| s.k <= s.j && s.j <= i && s.value == value(s.j) + value(s.k) && s.value > value(i) && s.value <= n)
        && value(steps.len() as u16) == n
}

/// Puts each value into the lowest cell that no later step still needs. Answers how many cells there are, if they suffice.
fn place(steps: &[Step], cells: u8, places: &mut [u8; 129]) -> Option<u8> {
    let mut last = [0u8; 129];
    for (number, s) in (1..).zip(steps) {
        last[s.j as usize] = number;
        last[s.k as usize] = number;
    }
    let mut until = [0u8; 129];
    let mut used = 0;
    for s in 0..=steps.len() {
        let cell = until[..used].iter().position(|end| *end as usize <= s).unwrap_or(used);
        until[cell] = last[s];
        places[s] = cell as u8;
        used = used.max(cell + 1);
    }
    (used <= cells as usize).then_some(used as u8)
}

/// The need of the plan of 128 steps with the values 1 to 129 of which the first so many add 1 and the others start again from 1 on top of them.
pub fn place_longest(counted: u8, cells: u8) -> u64 {
    let counted = counted as usize;
    let mut table = [Step::default(); 128];
    for i in 0..128 {
        let (j, k) = if i < counted { (i, 0) } else { (counted, i - counted) };
        table[i] = Step::new(j, k, i as u64 + 2);
    }
    if !is_plan(129, &table) {
        return REFUSED;
    }
    place(&table, cells, &mut [0; 129]).map_or(REFUSED, u64::from)
}
