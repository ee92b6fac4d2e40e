// A row of an image written and read by hand in C++, for comparison. Nothing is checked: the image has room, the row
// has whole superblocks, and the readings are given its record and its length, without opening it.
#include "word.hpp"

#include <cstring>

namespace {

using std::size_t;
using std::uint32_t;
using std::uint64_t;
using std::uint8_t;
using Entry = unsigned __int128;

template <class T> T load(const uint8_t *bytes)
{
    T x;
    std::memcpy(&x, bytes, sizeof x);
    return x;
}

// The ones before block m of a record.
size_t before(const uint8_t *record, size_t m)
{
    Entry entry = load<Entry>(record + 16 + 16 * (m / 8));
    size_t sum = uint64_t(entry) & ((uint64_t(1) << 44) - 1);
    return m % 8 == 0 ? sum : sum + size_t(entry >> (32 + 12 * (m % 8)) & 4095);
}

// The entry of the superblock of these 64 words, with `sum` ones before it; adds the ones of the superblock to sum.
Entry entry_of(const uint64_t *words, size_t &sum)
{
    Entry entry = sum;
    size_t ones = 0;
    for (size_t j = 0; j < 8; j++) {
        for (size_t w = 8 * j; w < 8 * j + 8; w++) ones += word::ones(words[w]);
        if (j < 7) entry |= Entry(ones) << (44 + 12 * j);
    }
    sum += ones;
    return entry;
}

} // namespace

extern "C" {

// clear, then freeze of so many words, as the only record
void row_freeze(const uint64_t *words, size_t count, uint8_t *image, uint32_t label)
{
    size_t sum = 0, superblocks = count / 64;
    uint8_t *index = image + 32, *bits = index + 16 * superblocks;
    for (size_t e = 0; e < superblocks; e++) {
        Entry entry = entry_of(words + 64 * e, sum);
        std::memcpy(index + 16 * e, &entry, 16);
        std::memcpy(bits + 512 * e, words + 64 * e, 512);
    }
    uint32_t head[8] = {1, 1, 0, 0, 0, label, uint32_t(64 * count), uint32_t(sum)};
    std::memcpy(image, head, sizeof head);
}

// inspect of the only row
bool row_inspect(const uint8_t *record)
{
    size_t sum = 0, superblocks = load<uint32_t>(record + 8) / 4096;
    const uint8_t *bits = record + 16 + 16 * superblocks;
    for (size_t e = 0; e < superblocks; e++) {
        uint64_t words[64];
        std::memcpy(words, bits + 512 * e, 512);
        if (entry_of(words, sum) != load<Entry>(record + 16 + 16 * e)) return false;
    }
    return load<uint32_t>(record + 12) == sum;
}

// row count(1, i), i below the length
size_t row_rank(const uint8_t *record, size_t length, size_t i)
{
    const uint8_t *bits = record + 16 + length / 256;
    size_t sum = before(record, i / 512);
    for (size_t w = i / 512 * 8; w < i / 64; w++) sum += word::ones(load<uint64_t>(bits + 8 * w));
    return sum + word::ones(load<uint64_t>(bits + i / 64 * 8) & ((uint64_t(1) << i % 64) - 1));
}

// row find(1, k), k below the ones
size_t row_select(const uint8_t *record, size_t length, size_t k)
{
    const uint8_t *bits = record + 16 + length / 256;
    size_t lo = 0, hi = length / 512;
    while (hi - lo > 1) {
        size_t mid = (lo + hi) / 2;
        if (before(record, mid) <= k)
            lo = mid;
        else
            hi = mid;
    }
    k -= before(record, lo);
    for (size_t w = 8 * lo;; w++) {
        uint64_t x = load<uint64_t>(bits + 8 * w);
        size_t n = word::ones(x);
        if (k < n) return 64 * w + word::select(x, k);
        k -= n;
    }
}

} // extern "C"
