//! The same answers by a plain scan of the words, with and without the machine's ones count.

#[inline(always)]
fn rank_by_scan(words: &[u64], i: usize) -> usize {
    let whole: usize = words[..i / 64].iter().map(|x| x.count_ones() as usize).sum();
    whole + (words[i / 64] & ((1 << (i % 64)) - 1)).count_ones() as usize
}

#[inline(always)]
fn select_by_scan(words: &[u64], v: u64, k: usize) -> usize {
    let mut left = k;
    for (j, word) in words.iter().enumerate() {
        let mut x = if v == 1 { *word } else { !*word };
        let n = x.count_ones() as usize;
        if left < n {
            for _ in 0..left {
                x &= x - 1;
            }
            return 64 * j + x.trailing_zeros() as usize;
        }
        left -= n;
    }
    usize::MAX
}

#[inline(never)]
pub fn rank(words: &[u64], i: usize) -> usize {
    rank_by_scan(words, i)
}

#[inline(never)]
pub fn select(words: &[u64], v: u64, k: usize) -> usize {
    select_by_scan(words, v, k)
}

#[inline(never)]
pub fn successor(words: &[u64], v: u64, i: usize) -> usize {
    let of = |j: usize| if v == 1 { words[j] } else { !words[j] };
    let first = of(i / 64) >> (i % 64) << (i % 64);
    let rest = (i / 64 + 1..words.len()).map(|j| (j, of(j)));
    let hit = std::iter::once((i / 64, first)).chain(rest).find(|(_, x)| *x != 0);
    hit.map_or(64 * words.len(), |(j, x)| 64 * j + x.trailing_zeros() as usize)
}

/// The first start of a window of w bits that holds at least m ones, or the number of bits: a count that slides on bit
/// by bit.
#[inline(never)]
pub fn window(words: &[u64], w: usize, m: usize) -> usize {
    let bit = |p: usize| (words[p / 64] >> (p % 64) & 1) as usize;
    let bits = 64 * words.len();
    let mut count: usize = (0..w).map(bit).sum();
    let mut start = 0;
    while count < m {
        if start + w == bits {
            return bits;
        }
        count = count + bit(start + w) - bit(start);
        start += 1;
    }
    start
}

/// The ones of the first i bits of these bytes.
#[inline(never)]
pub fn rank_in_bytes(bytes: &[u8], i: usize) -> usize {
    let ones = |part: &[u8]| u64::from_le_bytes(part.try_into().unwrap());
    let whole: usize = bytes[..i / 64 * 8].chunks_exact(8).map(|part| ones(part).count_ones() as usize).sum();
    whole + (ones(&bytes[i / 64 * 8..][..8]) & ((1 << (i % 64)) - 1)).count_ones() as usize
}

#[target_feature(enable = "popcnt")]
#[inline(never)]
pub unsafe fn rank_popcnt(words: &[u64], i: usize) -> usize {
    rank_by_scan(words, i)
}

#[target_feature(enable = "popcnt")]
#[inline(never)]
pub unsafe fn select_popcnt(words: &[u64], v: u64, k: usize) -> usize {
    select_by_scan(words, v, k)
}
