// Freeze by hand with 128-bit operations, whole and in parts, to show what limits it. Nothing is checked: the image has
// room, and the row has whole superblocks.
#include <cstddef>
#include <cstdint>
#include <cstring>
#include <emmintrin.h>

namespace {

using std::size_t;
using std::uint32_t;
using std::uint64_t;
using std::uint8_t;
using Vector [[gnu::vector_size(16)]] = uint64_t;

// A block: eight words.
struct Block {
    Vector a, b, c, d;
};

Vector load(const uint64_t *words) { return Vector(_mm_loadu_si128(reinterpret_cast<const __m128i *>(words))); }

Block load_block(const uint64_t *words) { return {load(words), load(words + 2), load(words + 4), load(words + 6)}; }

void store(uint8_t *bits, Vector x) { _mm_storeu_si128(reinterpret_cast<__m128i *>(bits), __m128i(x)); }

void store_block(uint8_t *bits, const Block &x)
{
    store(bits, x.a);
    store(bits + 16, x.b);
    store(bits + 32, x.c);
    store(bits + 48, x.d);
}

// Counts of ones: of each two bits of x; of each four bits, from those of two; of each eight, from those of four.
Vector twos(Vector x) { return x - (x >> 1 & 0x5555555555555555); }
Vector fours(Vector x) { return (x & 0x3333333333333333) + (x >> 2 & 0x3333333333333333); }
Vector eights(Vector x) { return (x & 0x0f0f0f0f0f0f0f0f) + (x >> 4 & 0x0f0f0f0f0f0f0f0f); }

// The ones of each byte. The counts of four bits are at most 4, so that their sum needs one mask only.
Vector byte_counts(Vector x)
{
    x = fours(twos(x));
    return (x + (x >> 4)) & 0x0f0f0f0f0f0f0f0f;
}

// The ones of a block, byte by byte of its four vectors.
Vector plain(const Block &x) { return (byte_counts(x.a) + byte_counts(x.b)) + (byte_counts(x.c) + byte_counts(x.d)); }

// The same with fewer operations: one bit of each two of c is added to the counts of a, the other to those of b, which
// then are at most 3; the counts of four bits of both, at most 12 together, are widened as one.
Vector merged(const Block &x)
{
    Vector even = x.c & 0x5555555555555555, odd = x.c >> 1 & 0x5555555555555555;
    return eights(fours(twos(x.a) + even) + fours(twos(x.b) + odd)) + byte_counts(x.d);
}

// The sum of all bytes.
size_t total(Vector x)
{
    Vector sums = Vector(_mm_sad_epu8(__m128i(x), _mm_setzero_si128()));
    return sums[0] + sums[1];
}

// The ones before a superblock in 44 bits, then those of its first block, of its first two, .., seven in 12 bits each.
void put_entry(uint8_t *at, size_t before, const size_t *ones)
{
    uint64_t low = before | ones[0] << 44 | ones[1] << 56;
    uint64_t high = ones[1] >> 8 | ones[2] << 4 | ones[3] << 16 | ones[4] << 28 | ones[5] << 40 | ones[6] << 52;
    std::memcpy(at, &low, 8);
    std::memcpy(at + 8, &high, 8);
}

// clear, then freeze of so many words, as the only record; `block` stores the bits of a block and gives its ones.
template <class F> void freeze(const uint64_t *words, size_t count, uint8_t *image, uint32_t label, F block)
{
    size_t sum = 0, superblocks = count / 64;
    uint8_t *index = image + 32, *bits = index + 16 * superblocks;
    for (size_t e = 0; e < superblocks; e++) {
        size_t ones[8], all = 0;
#pragma GCC unroll 8
        for (size_t j = 0; j < 8; j++) {
            all += block(words + 64 * e + 8 * j, bits + 512 * e + 64 * j);
            ones[j] = all;
        }
        put_entry(index + 16 * e, sum, ones);
        sum += all;
    }
    uint32_t head[8] = {1, 1, 0, 0, 0, label, uint32_t(64 * count), uint32_t(sum)};
    std::memcpy(image, head, sizeof head);
}

} // namespace

extern "C" {

// The words to the place of the row's bits; nothing else is written.
void hand_copy(const uint64_t *words, size_t count, uint8_t *image)
{
    uint8_t *bits = image + 32 + count / 4;
    for (size_t w = 0; w < count; w += 8) store_block(bits + 8 * w, load_block(words + w));
}

// The ones of each block, added up; nothing is written.
size_t hand_count(const uint64_t *words, size_t count)
{
    size_t sum = 0;
#pragma GCC unroll 8
    for (size_t w = 0; w < count; w += 8) sum += total(merged(load_block(words + w)));
    return sum;
}

void hand_freeze(const uint64_t *words, size_t count, uint8_t *image, uint32_t label)
{
    freeze(words, count, image, label, [](const uint64_t *from, uint8_t *to) {
        Block x = load_block(from);
        store_block(to, x);
        return total(plain(x));
    });
}

void hand_merged(const uint64_t *words, size_t count, uint8_t *image, uint32_t label)
{
    freeze(words, count, image, label, [](const uint64_t *from, uint8_t *to) {
        Block x = load_block(from);
        store_block(to, x);
        return total(merged(x));
    });
}

// With the machine's ones count, which baseline x86-64 has not. All that it calls is put into it.
[[gnu::target("popcnt"), gnu::flatten]]
void hand_popcnt(const uint64_t *words, size_t count, uint8_t *image, uint32_t label)
{
    freeze(words, count, image, label, [](const uint64_t *from, uint8_t *to) {
        store_block(to, load_block(from));
        size_t ones = 0;
        for (size_t w = 0; w < 8; w++) ones += size_t(__builtin_popcountll(from[w]));
        return ones;
    });
}

} // extern "C"
