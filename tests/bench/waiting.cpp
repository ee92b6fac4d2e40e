// The calls on a strip and its waiting strip written by hand in C++, for comparison: one pass over the words of both.
// Nothing is checked: the caller lends as many words as hold the length, a position that is there, and a k that some
// outcome has.
#include "word.hpp"

namespace {

using std::size_t;
using std::uint64_t;
using word::ones;

// The ones that every outcome has, and those that some outcome has.
uint64_t sure(uint64_t x, uint64_t marks) { return x & ~marks; }
uint64_t possible(uint64_t x, uint64_t marks) { return x | marks; }

} // namespace

extern "C" {

struct Counts {
    size_t least, most;
};

// The latest is the length or more where some outcome has no k-th one.
struct Places {
    size_t earliest, latest;
};

// count(i)
Counts waiting_count(const uint64_t *words, const uint64_t *waiting, size_t i)
{
    size_t least = 0, most = 0, whole = i / 64;
    for (size_t j = 0; j < whole; j++) {
        least += ones(sure(words[j], waiting[j]));
        most += ones(possible(words[j], waiting[j]));
    }
    if (i % 64 != 0) {
        uint64_t mask = (uint64_t(1) << i % 64) - 1;
        least += ones(sure(words[whole], waiting[whole]) & mask);
        most += ones(possible(words[whole], waiting[whole]) & mask);
    }
    return {least, most};
}

// find(k)
Places waiting_find(const uint64_t *words, const uint64_t *waiting, size_t length, size_t k)
{
    size_t j = 0, possible_left = k, sure_left = k, earliest;
    for (;; j++) {
        uint64_t x = possible(words[j], waiting[j]);
        size_t n = ones(x);
        if (possible_left < n) {
            earliest = 64 * j + word::select(x, possible_left);
            break;
        }
        possible_left -= n;
        sure_left -= ones(sure(words[j], waiting[j]));
    }
    // the word of the earliest may have the latest too
    for (; 64 * j < length; j++) {
        uint64_t x = sure(words[j], waiting[j]);
        size_t n = ones(x);
        if (sure_left < n) return {earliest, 64 * j + word::select(x, sure_left)};
        sure_left -= n;
    }
    return {earliest, length};
}

} // extern "C"
