//! What the benchmarks share: words of a density of ones, totals, and quartiles.
use crate::random::Random;

/// Lower quartile, median, upper quartile.
pub fn quartiles(mut figures: Vec<f64>) -> Option<[f64; 3]> {
    figures.sort_by(f64::total_cmp);
    let last = figures.len().checked_sub(1)?;
    Some([1, 2, 3].map(|q| figures[q * last / 4]))
}

/// A word of which each bit is a one in one of 2^power cases.
pub fn rare(random: &mut Random, power: u32) -> u64 {
    (0..power).fold(!0, |x, _| x & random.number())
}

/// A word with about `share` ones of 64: 1, 32 or 63.
pub fn word(random: &mut Random, share: usize) -> u64 {
    match share {
        1 => rare(random, 6),
        63 => !rare(random, 6),
        _ => random.number(),
    }
}

/// The total of a strip of these words and that length.
pub fn total(words: &[u64], length: usize) -> u64 {
    let last = words.get(length / 64).map_or(0, |x| x & ((1 << (length % 64)) - 1));
    words[..length / 64].iter().chain([&last]).map(|x| u64::from(x.count_ones())).sum()
}
