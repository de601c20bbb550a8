//! The definitions once more, on words as u64 and from the order's text alone.

use tvarchula_reference::Layout;

pub type Words = Vec<u64>;

/// Words as a call lends them.
pub fn wide(words: &[u32]) -> Words {
    words.iter().map(|&word| u64::from(word)).collect()
}

/// Words as a call writes them.
pub fn narrow(words: &[u64]) -> Vec<u32> {
    words.iter().map(|&word| word as u32).collect()
}

/// The generator matrix of depth d, one block matrix after the other: the one before it twice side by
/// side, and below that times T and times T'.
pub fn generator(p: u64, layout: &Layout, [g, t, t2]: &[Vec<u32>; 3]) -> Vec<Words> {
    let mut matrix: Vec<Words> = g.chunks(g.len() / layout.k0).map(wide).collect();
    let mut start = 0;
    for _ in 0..layout.depth {
        let (rows, columns) = (matrix.len(), matrix[0].len());
        let mut next = vec![vec![0; 2 * columns]; 2 * rows];
        for a in 0..rows {
            for b in 0..columns {
                let entry = matrix[a][b];
                next[a][b] = entry;
                next[a][columns + b] = entry;
                next[rows + a][b] = entry * u64::from(t[start + b]) % p;
                next[rows + a][columns + b] = entry * u64::from(t2[start + b]) % p;
            }
        }
        start += columns;
        matrix = next;
    }
    matrix
}

/// A row of words times a matrix.
pub fn product(p: u64, words: &[u64], matrix: &[Words]) -> Words {
    let mut sums = vec![0; matrix[0].len()];
    for (word, row) in words.iter().zip(matrix) {
        for (sum, entry) in sums.iter_mut().zip(row) {
            *sum = (*sum + word * entry) % p;
        }
    }
    sums
}

/// The value at a point of the polynomial with these coefficients.
pub fn value(p: u64, coefficients: &[u64], point: &[u64]) -> u64 {
    let mut sum = 0;
    for (b, word) in coefficients.iter().enumerate() {
        let mut term = *word;
        for (i, x) in point.iter().enumerate() {
            if b & (1 << i) != 0 {
                term = term * x % p;
            }
        }
        sum = (sum + term) % p;
    }
    sum
}

/// The product of z_i x_i + (1 - z_i)(1 - x_i).
pub fn eq(p: u64, z: &[u64], x: &[u64]) -> u64 {
    let mut product = 1;
    for (z, x) in z.iter().zip(x) {
        let factor = z * x % p + (p + 1 - z) % p * ((p + 1 - x) % p) % p;
        product = product * (factor % p) % p;
    }
    product
}

/// Corner b of so many variables.
pub fn corner(b: usize, variables: usize) -> Words {
    (0..variables).map(|i| (b >> i & 1) as u64).collect()
}

/// The opening as its definition has it, but the blocks as codewords of what is left of the message.
pub fn opening(
    p: u64,
    layout: &Layout,
    code: &[Vec<u32>; 3],
    message: &[u64],
    z: &[u64],
    r: &[u64],
) -> Words {
    let mut opening = Words::new();
    for i in (1..=layout.depth).rev() {
        let summed = z.len() - layout.depth + i - 1;
        for place in 0..3 {
            let mut sum = 0;
            for b in 0..1 << summed {
                let x = [&corner(b, summed)[..], &[place], &r[i..]].concat();
                sum = (sum + value(p, message, &x) * eq(p, z, &x)) % p;
            }
            opening.push(sum);
        }
    }
    let lefts: Vec<Words> = (0..layout.depth)
        .map(|level| left(p, message, &r[level..]))
        .collect();
    opening.extend(left(p, message, r));
    for (level, left) in lefts.iter().enumerate().rev() {
        let depth = level;
        let matrix = generator(p, &Layout { depth, ..*layout }, code);
        opening.extend(product(p, left, &matrix));
    }
    opening
}

/// The coefficients that are left when the highest variables have these values.
fn left(p: u64, message: &[u64], high: &[u64]) -> Words {
    let mut left = message.to_vec();
    for x in high.iter().rev() {
        let upper = left.split_off(left.len() / 2);
        for (word, upper) in left.iter_mut().zip(upper) {
            *word = (*word + x * upper) % p;
        }
    }
    left
}
