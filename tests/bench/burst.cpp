// The burst call written by hand in C++, for comparison: one pass over the words, start by start in a word where a
// window with enough ones may start. Nothing is checked: the caller lends as many words as hold the length, and asks
// for a width and a number of ones from 1 on.
#include "word.hpp"

namespace {

using std::size_t;
using std::uint64_t;
using word::ones;

// The first of k starts in a word whose window holds at least m ones, or k. The first window holds `count`; as it moves
// on, the bits of `leaving` leave and those of `entering` enter.
size_t first_start(uint64_t leaving, uint64_t entering, size_t count, size_t m, size_t k)
{
    for (size_t d = 0; d < k; d++) {
        if (count >= m) return d;
        count += (entering >> d & 1) - (leaving >> d & 1);
    }
    return k;
}

} // namespace

extern "C" {

// burst(w, m); the length where there is none
size_t burst_start(const uint64_t *words, size_t length, size_t w, size_t m)
{
    if (length < w) return length;
    size_t count = 0;
    for (size_t j = 0; j < w / 64; j++) count += ones(words[j]);
    if (w % 64 != 0) count += ones(words[w / 64] & ((uint64_t(1) << w % 64) - 1));

    // the last position of a window is bit `bit` of the word `ahead` words past that of its start
    size_t ahead = (w - 1) / 64, bit = (w - 1) % 64;
    size_t whole = (length - w) / 64, rest = (length - w) % 64;
    for (size_t j = 0; j < whole; j++) {
        uint64_t entering = words[j + ahead] >> 1 >> bit | words[j + ahead + 1] << (63 - bit);
        size_t n = ones(entering);
        if (count + n >= m) {
            size_t d = first_start(words[j], entering, count, m, 64);
            if (d < 64) return 64 * j + d;
        }
        count += n - ones(words[j]);
    }
    // the starts that are left in a word, and the positions that enter before the length
    uint64_t entering = words[whole + ahead] >> 1 >> bit;
    if (bit + rest > 63) entering |= words[whole + ahead + 1] << (63 - bit);
    size_t d = first_start(words[whole], entering, count, m, rest + 1);
    return d <= rest ? 64 * whole + d : length;
}

} // extern "C"
