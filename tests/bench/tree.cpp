// The same tree of counters written by hand in C++, for comparison. In the functions tree_* nothing is checked: the
// caller lends a fitting record, and positions and k that are there. Those named checked_* take what the library's take,
// make its checks of handle, buffers and arguments, and answer as it does; that the record fits they take on trust. All
// that they call is put into them.
#include "word.hpp"

#include <cstring>

namespace {

using std::size_t;
using std::uint32_t;
using std::uint64_t;
using word::ones;

// The levels over a capacity: their number, and where each starts; level 0 is the lowest.
struct Shape {
    size_t height, start[3];
    explicit Shape(size_t capacity)
    {
        size_t nodes[3], count = capacity / 512;
        for (height = 0; height == 0 || count > 1; height++) nodes[height] = count = (count + 63) / 64;
        for (size_t t = height, at = 0; t-- > 0; at += 72 * nodes[t]) start[t] = at;
    }
};

// Moves the counters that count stroke p by d, and gives their number.
size_t move(const Shape &shape, uint32_t *counters, size_t p, uint32_t d)
{
    size_t number = 0, child = p / 512;
    for (size_t t = 0; t < shape.height; t++) {
        size_t c = child % 64;
        child /= 64;
        uint32_t *node = counters + shape.start[t] + 72 * child;
        for (size_t g = c / 8 + 1; g < 8; g++) node[g] += d;
        for (size_t key = c; key < 8 * (c / 8) + 8; key++) node[8 + key] += d;
        number += 15 - c % 8 - c / 8;
    }
    return number;
}

// Lays the counters of a node whose children hold these numbers.
void build_node(const uint32_t *children, uint32_t *node)
{
    uint32_t sum = 0;
    for (size_t g = 0; g < 8; g++) {
        node[g] = sum;
        uint32_t group = 0;
        for (size_t c = 8 * g; c < 8 * g + 8; c++) node[8 + c] = group += children[c];
        sum += group;
    }
}

// Gives each node as it should be to `use`, level by level from the lowest, until it answers false.
template <class Use> bool each_node(size_t capacity, const uint64_t *words, const uint32_t *counters, Use use)
{
    Shape shape(capacity);
    size_t count = capacity / 512;
    for (size_t t = 0; t < shape.height; t++) {
        for (size_t first = 0; first < count; first += 64) {
            uint32_t children[64] = {}, node[72];
            for (size_t c = 0; c < 64 && first + c < count; c++)
                if (t == 0) {
                    for (size_t j = 0; j < 8; j++) children[c] += ones(words[8 * (first + c) + j]);
                } else {
                    const uint32_t *below = counters + shape.start[t - 1] + 72 * (first + c);
                    children[c] = below[7] + below[71];
                }
            build_node(children, node);
            if (!use(shape.start[t] + 72 * (first / 64), node)) return false;
        }
        count = (count + 63) / 64;
    }
    return true;
}

void put(uint64_t *words, size_t a, size_t b, uint64_t v)
{
    for (; a < b && a % 64 != 0; a++) words[a / 64] = (words[a / 64] & ~(uint64_t(1) << a % 64)) | v << a % 64;
    for (; a + 64 <= b; a += 64) words[a / 64] = v ? ~uint64_t(0) : 0;
    for (; a < b; a++) words[a / 64] = (words[a / 64] & ~(uint64_t(1) << a % 64)) | v << a % 64;
}

// The ones before the word of position i, and those of it that the mask names.
size_t ones_to(size_t capacity, const uint64_t *words, const uint32_t *counters, size_t i, uint64_t mask)
{
    Shape shape(capacity);
    size_t sum = 0, child = i / 512;
    for (size_t t = 0; t < shape.height; t++) {
        size_t c = child % 64;
        child /= 64;
        const uint32_t *node = counters + shape.start[t] + 72 * child;
        sum += node[c / 8];
        if (c % 8 != 0) sum += node[7 + c];
    }
    for (size_t j = i / 512 * 8; j < i / 64; j++) sum += ones(words[j]);
    return sum + ones(words[i / 64] & mask);
}

// The first refusal of handle and buffers, or 0.
uint64_t refusal(size_t capacity, size_t length, size_t total, size_t words, size_t counters)
{
    if (capacity % 512 != 0 || capacity < 512 || capacity > 134217728 || length > capacity || total > length) return 1;
    if (words != capacity / 64) return 2;
    size_t nodes = 0, count = capacity / 512;
    do nodes += count = (count + 63) / 64;
    while (count > 1);
    return counters != 72 * nodes ? 3 : 0;
}

// The bit at position p.
uint64_t bit(const uint64_t *words, size_t p) { return words[p / 64] >> p % 64 & 1; }

// A refusal as an answer.
uint64_t refused(uint64_t number) { return (uint64_t(1) << 32) + number; }

// What a change answers.
void answer(uint64_t *out, uint64_t number, uint64_t x, uint64_t y, size_t capacity, size_t length, size_t total)
{
    out[0] = number;
    out[1] = x;
    out[2] = y;
    out[3] = capacity;
    out[4] = length;
    out[5] = total;
}

} // namespace

extern "C" {

// count(1, i), i below the capacity
[[gnu::flatten]]
size_t tree_rank(size_t capacity, const uint64_t *words, const uint32_t *counters, size_t i)
{
    return ones_to(capacity, words, counters, i, (uint64_t(1) << i % 64) - 1);
}

// find(v, k)
size_t tree_select(size_t capacity, const uint64_t *words, const uint32_t *counters, uint64_t v, size_t k)
{
    Shape shape(capacity);
    size_t index = 0;
    for (size_t t = shape.height; t-- > 0;) {
        const uint32_t *node = counters + shape.start[t] + 72 * index;
        size_t size = size_t(512) << 6 * t;
        auto held = [=](size_t x, size_t children) { return v == 1 ? x : size * children - x; };
        size_t g = 7, c = 0;
        while (held(node[g], 8 * g) > k) g--;
        k -= held(node[g], 8 * g);
        const uint32_t *keys = node + 8 + 8 * g;
        while (c < 7 && held(keys[c], c + 1) <= k) c++;
        if (c != 0) k -= held(keys[c - 1], c);
        index = 64 * index + 8 * g + c;
    }
    for (size_t j = 8 * index;; j++) {
        uint64_t x = v == 1 ? words[j] : ~words[j];
        size_t n = ones(x);
        if (k < n) return 64 * j + word::select(x, k);
        k -= n;
    }
}

// next(v, i), i below the length, a multiple of 64; the length where there is none
size_t tree_successor(size_t length, const uint64_t *words, uint64_t v, size_t i)
{
    size_t j = i / 64;
    uint64_t x = (words[j] ^ (v - 1)) >> i % 64 << i % 64;
    while (x == 0) {
        if (++j == length / 64) return length;
        x = words[j] ^ (v - 1);
    }
    return 64 * j + __builtin_ctzll(x);
}

// select in a word that has more than k ones
size_t tree_select_in_word(uint64_t x, size_t k) { return word::select(x, k); }

// turn(p): the number of counters changed
size_t tree_flip(size_t capacity, uint64_t *words, uint32_t *counters, size_t p)
{
    words[p / 64] ^= uint64_t(1) << p % 64;
    return move(Shape(capacity), counters, p, bit(words, p) ? 1 : -1);
}

// add(v) at position p: the number of counters changed
size_t tree_push(size_t capacity, uint64_t *words, uint32_t *counters, size_t p, uint64_t v)
{
    if (v == 0) return 0;
    words[p / 64] |= uint64_t(1) << p % 64;
    return move(Shape(capacity), counters, p, 1);
}

// run(a, b, v) on a strip of that length: the ones held
size_t tree_fill(size_t capacity, size_t length, uint64_t *words, uint32_t *counters, size_t a, size_t b, uint64_t v)
{
    put(words, a, b, v);
    put(words, length, capacity, 0);
    each_node(capacity, words, counters, [=](size_t at, const uint32_t *node) {
        std::memcpy(counters + at, node, 72 * sizeof *node);
        return true;
    });
    return size_t(counters[7]) + counters[71];
}

// check: whether every counter is right, and every bit past the length 0
bool tree_verify(size_t capacity, size_t length, const uint64_t *words, const uint32_t *counters)
{
    for (size_t p = length; p < capacity; p++) {
        if (p % 64 == 0) {
            for (size_t j = p / 64; j < capacity / 64; j++)
                if (words[j] != 0) return false;
            break;
        }
        if (bit(words, p)) return false;
    }
    return each_node(capacity, words, counters, [=](size_t at, const uint32_t *node) {
        return std::memcmp(counters + at, node, 72 * sizeof *node) == 0;
    });
}

[[gnu::flatten]]
uint64_t checked_rank(size_t capacity, size_t length, size_t total, const uint64_t *words, size_t nw,
                      const uint32_t *counters, size_t nc, uint64_t v, size_t i)
{
    uint64_t number = refusal(capacity, length, total, nw, nc);
    if (number == 0) number = v > 1 ? 8 : i > length ? 4 : 0;
    if (number != 0) return refused(number);
    if (i == 0) return 0;
    size_t found = ones_to(capacity, words, counters, i - 1, ~uint64_t(0) >> (63 - (i - 1) % 64));
    if (found > i) return refused(9);
    return v == 1 ? found : i - found;
}

[[gnu::flatten]]
uint64_t checked_select(size_t capacity, size_t length, size_t total, const uint64_t *words, size_t nw,
                        const uint32_t *counters, size_t nc, uint64_t v, size_t k)
{
    uint64_t number = refusal(capacity, length, total, nw, nc);
    if (number == 0) number = v > 1 ? 8 : k >= (v == 1 ? total : length - total) ? 6 : 0;
    if (number != 0) return refused(number);
    return tree_select(capacity, words, counters, v, k);
}

[[gnu::flatten]]
void checked_flip(size_t capacity, size_t length, size_t total, uint64_t *words, size_t nw, uint32_t *counters,
                  size_t nc, size_t i, uint64_t *out, size_t out_len)
{
    if (out_len < 6) return;
    uint64_t number = refusal(capacity, length, total, nw, nc);
    if (number == 0) number = i >= length ? 4 : total == (bit(words, i) ? 0 : length) ? 9 : 0;
    if (number != 0) return answer(out, number, 0, 0, capacity, length, total);
    size_t changed = tree_flip(capacity, words, counters, i);
    answer(out, 0, bit(words, i), changed, capacity, length, bit(words, i) ? total + 1 : total - 1);
}

[[gnu::flatten]]
void checked_push(size_t capacity, size_t length, size_t total, uint64_t *words, size_t nw, uint32_t *counters,
                  size_t nc, uint64_t v, uint64_t *out, size_t out_len)
{
    if (out_len < 6) return;
    uint64_t number = refusal(capacity, length, total, nw, nc);
    if (number == 0) number = v > 1 ? 8 : length == capacity ? 7 : 0;
    if (number != 0) return answer(out, number, 0, 0, capacity, length, total);
    answer(out, 0, length, tree_push(capacity, words, counters, length, v), capacity, length + 1, total + v);
}

} // extern "C"
