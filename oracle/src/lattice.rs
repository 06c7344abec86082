// The nineteen directions and their weights; the moments and the equilibrium of one cell's parts.

/// One density unit, 36·16,384.
pub const ONE: i128 = 589_824;

pub type Parts = [i128; 19];
pub type Vector = [i128; 3];

pub const DIRECTIONS: [Vector; 19] = [
    [0, 0, 0],
    [1, 0, 0],
    [-1, 0, 0],
    [0, 1, 0],
    [0, -1, 0],
    [0, 0, 1],
    [0, 0, -1],
    [1, 1, 0],
    [-1, -1, 0],
    [1, -1, 0],
    [-1, 1, 0],
    [0, 1, 1],
    [0, -1, -1],
    [0, 1, -1],
    [0, -1, 1],
    [1, 0, 1],
    [-1, 0, -1],
    [1, 0, -1],
    [-1, 0, 1],
];

/// Weight in 36ths.
pub fn weight(k: usize) -> i128 {
    match k {
        0 => 12,
        1..=6 => 2,
        _ => 1,
    }
}

/// The direction that points back; rest is its own.
pub fn opposite(k: usize) -> usize {
    match k {
        0 => 0,
        odd if odd % 2 == 1 => odd + 1,
        even => even - 1,
    }
}

pub fn dot(a: &Vector, b: &Vector) -> i128 {
    a[0] * b[0] + a[1] * b[1] + a[2] * b[2]
}

/// "Cut" of document 01: the quotient rounded towards zero, which is Rust's own division.
pub fn cut(numerator: i128, denominator: i128) -> i128 {
    numerator / denominator
}

/// The quotient rounded down, for a denominator above 0.
pub fn floor(numerator: i128, denominator: i128) -> i128 {
    numerator.div_euclid(denominator)
}

pub fn density(parts: &Parts) -> i128 {
    parts.iter().sum()
}

pub fn momentum(parts: &Parts) -> Vector {
    let mut j = [0; 3];
    for (part, e) in parts.iter().zip(&DIRECTIONS) {
        for axis in 0..3 {
            j[axis] += part * e[axis];
        }
    }
    j
}

/// Q of stage 4. The equilibrium part of direction k is w·Q/(72ρ).
pub fn q(rho: i128, j: &Vector, k: usize) -> i128 {
    let along = dot(&DIRECTIONS[k], j);
    2 * rho * rho + 6 * rho * along + 9 * along * along - 3 * dot(j, j)
}

/// Stage 5's parts of a new interface cell: moving parts cut, part 0 the rest of ρ.
pub fn equilibrium(rho: i128, j: &Vector) -> Parts {
    let mut parts = [0; 19];
    for (k, part) in parts.iter_mut().enumerate().skip(1) {
        *part = cut(weight(k) * q(rho, j, k), 72 * rho);
    }
    parts[0] = rho - density(&parts);
    parts
}
