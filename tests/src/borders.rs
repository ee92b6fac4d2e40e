//! The borders that the tests walk. tests/common/borders.h has those of the C tests.
use crate::Handle;

/// The largest capacity, which is the greatest length of a row too.
pub const LARGEST: u64 = 134_217_728;

/// The most strokes of a window.
pub const WIDEST: u64 = 65_536;

/// The most bytes of an image.
pub const MOST_BYTES: usize = 1 << 32;

/// What an argument loses where it is cut to 32 bits.
pub const WIDE: u64 = 1 << 32;

/// The largest capacity at one level.
pub const ONE_LEVEL: u64 = 32_768;

/// The smallest capacity at two levels.
pub const TWO_LEVELS: u64 = 33_280;

/// The largest capacity at two levels.
pub const TWO_LEVELS_FULL: u64 = 2_097_152;

/// The smallest capacity at three levels.
pub const THREE_LEVELS: u64 = 2_097_664;

/// Capacities with their numbers of counters: the smallest, those at the borders of the levels, the largest.
pub const COUNTERS: [(u64, usize); 6] = [
    (512, 72),
    (ONE_LEVEL, 72),
    (TWO_LEVELS, 216),
    (TWO_LEVELS_FULL, 4_680),
    (THREE_LEVELS, 4_896),
    (LARGEST, 299_592),
];

/// Lengths and positions around 0, and around the ends of the first byte, word, block and superblock.
pub const SMALL: [u64; 12] = [0, 1, 7, 63, 64, 65, 511, 512, 513, 4095, 4096, 4097];

/// The bits of a byte, a word, a block, a superblock, a node of level 1, eight of them, a node of level 2.
pub const UNITS: [u64; 7] = [8, 64, 512, 4096, 32_768, 262_144, 2_097_152];

/// Numbers far past every length: around 2^32, 2^63, below 2^64.
pub const FAR: [u64; 7] = [WIDE - 1, WIDE, WIDE + 1, 1 << 63, u64::MAX - 511, u64::MAX - 1, u64::MAX];

/// Values that are neither 0 nor 1, among them some that would be if they were cut to 32 bits.
pub const BAD_VALUES: [u64; 6] = [2, 3, WIDE, WIDE + 1, 1 << 63, u64::MAX];

/// Values good and bad.
pub const VALUES: [u64; 6] = [0, 1, 2, WIDE, WIDE + 1, u64::MAX];

/// Capacities that are not allowed.
pub const BAD_CAPACITIES: [u64; 17] = [
    0,
    1,
    64,
    256,
    511,
    513,
    768,
    1023,
    LARGEST - 256,
    LARGEST + 1,
    LARGEST + 512,
    WIDE,
    WIDE + 512,
    1 << 63,
    (1 << 63) + 512,
    u64::MAX - 511,
    u64::MAX,
];

/// Labels at both ends of the range, inside it and out of it.
pub const LABELS: [u64; 8] = [0, 1, 3, 64, 65, WIDE - 1, WIDE + 3, u64::MAX];

/// Sizes of an image around the header, the first unit and the first record.
pub const SIZES: [usize; 9] = [0, 1, 15, 16, 17, 31, 32, 559, 560];

/// Handles that are refused: capacities not allowed, lengths above the capacity, totals above the length.
pub fn bad_handles() -> Vec<Handle> {
    let mut list = BAD_CAPACITIES.map(|c| [0, 1, 512, c, u64::MAX].map(|n| Handle::new(c, n))).concat();
    for c in [512, 1024, LARGEST] {
        list.extend([c + 1, c + 512].into_iter().chain(FAR).map(|n| Handle::new(c, n)));
        for h in [0, 1, c - 1, c].map(|n| Handle::new(c, n)) {
            list.extend([h.length + 1, c + 1].into_iter().chain(FAR).map(|total| h.with(total)));
        }
    }
    list
}

/// Totals good and bad under a capacity and a length of which so many are ones: this number, none, all, beside these, the
/// capacity, and numbers far past it, among them some that would be good if they were cut to 32 bits.
pub fn totals(h: Handle, ones: u64) -> Vec<u64> {
    let mut list = [ones, 0, h.length].map(beside).concat();
    list.extend([h.length / 2, h.capacity, h.capacity + 1, WIDE, WIDE + ones, 1 << 63]);
    list
}

/// A number and its two neighbours.
pub fn beside(number: u64) -> [u64; 3] {
    [number.wrapping_sub(1), number, number.wrapping_add(1)]
}

/// The small borders up to a capacity, and those at its end.
pub fn lengths(capacity: u64) -> Vec<u64> {
    let mut list: Vec<u64> = SMALL.into_iter().filter(|length| *length < capacity - 1).collect();
    list.extend([capacity - 1, capacity]);
    list
}
