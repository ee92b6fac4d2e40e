// The calls on two strips written by hand in C++, for comparison: one pass over the words of both. Nothing is checked:
// the caller lends as many words as are read, and positions and k that are there. gcc has no ones count for baseline
// x86-64 but a call for each word; word::ones, which the other versions take too, is faster.
#include "word.hpp"

namespace {

using std::int64_t;
using std::size_t;
using std::uint64_t;
using word::ones;

// The ones before position i of the strip that a rule makes of two.
template <class Rule> size_t count(const uint64_t *first, const uint64_t *second, size_t i, Rule rule)
{
    size_t sum = 0, whole = i / 64;
    for (size_t j = 0; j < whole; j++) sum += ones(rule(first[j], second[j]));
    if (i % 64 != 0) sum += ones(rule(first[whole], second[whole]) & ((uint64_t(1) << i % 64) - 1));
    return sum;
}

} // namespace

extern "C" {

// both(i), and so on
size_t pair_both(const uint64_t *first, const uint64_t *second, size_t i)
{
    return count(first, second, i, [](uint64_t x, uint64_t y) { return x & y; });
}

size_t pair_either(const uint64_t *first, const uint64_t *second, size_t i)
{
    return count(first, second, i, [](uint64_t x, uint64_t y) { return x | y; });
}

size_t pair_only_first(const uint64_t *first, const uint64_t *second, size_t i)
{
    return count(first, second, i, [](uint64_t x, uint64_t y) { return x & ~y; });
}

size_t pair_differ(const uint64_t *first, const uint64_t *second, size_t i)
{
    return count(first, second, i, [](uint64_t x, uint64_t y) { return x ^ y; });
}

// find(k), k below the strokes judged differently
size_t pair_find(const uint64_t *first, const uint64_t *second, size_t k)
{
    for (size_t j = 0;; j++) {
        uint64_t x = first[j] ^ second[j];
        size_t n = ones(x);
        if (k < n) return 64 * j + word::select(x, k);
        k -= n;
    }
}

// span(a, b)
int64_t pair_span(const uint64_t *first, const uint64_t *second, size_t a, size_t b)
{
    if (a == b) return 0;
    auto less = [=](size_t j, uint64_t mask) { return int64_t(ones(first[j] & mask) - ones(second[j] & mask)); };
    size_t from = a / 64, last = (b - 1) / 64;
    uint64_t high = ~uint64_t(0) << a % 64, low = ~uint64_t(0) >> (63 - (b - 1) % 64);
    if (from == last) return less(from, high & low);
    int64_t sum = less(from, high) + less(last, low);
    for (size_t j = from + 1; j < last; j++) sum += less(j, ~uint64_t(0));
    return sum;
}

} // extern "C"
