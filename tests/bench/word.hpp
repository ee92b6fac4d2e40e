// Ones and select in a word by hand, for baseline x86-64.
#pragma once
#include <cstddef>
#include <cstdint>

namespace word {

using std::size_t;
using std::uint64_t;

constexpr uint64_t lanes = 0x0101010101010101;
constexpr uint64_t tops = 0x8080808080808080;

// The position of the k-th one of the byte b at 8 * b + k, or 8.
struct Table {
    std::uint8_t at[2048];
    constexpr Table() : at{}
    {
        for (unsigned b = 0; b < 256; b++) {
            unsigned k = 0;
            for (unsigned p = 0; p < 8; p++)
                if (b >> p & 1) at[8 * b + k++] = p;
            while (k < 8) at[8 * b + k++] = 8;
        }
    }
};
constexpr Table table;

inline uint64_t byte_counts(uint64_t x)
{
    x -= x >> 1 & 0x5555555555555555;
    x = (x & 0x3333333333333333) + (x >> 2 & 0x3333333333333333);
    return (x + (x >> 4)) & 0x0f0f0f0f0f0f0f0f;
}

inline size_t ones(uint64_t x) { return byte_counts(x) * lanes >> 56; }

// k is below the ones of x.
inline size_t select(uint64_t x, size_t k)
{
    uint64_t sums = byte_counts(x) * lanes;
    uint64_t above = (((k * lanes | tops) - sums) & tops) ^ tops;
    size_t at = __builtin_ctzll(above) - 7;
    return at + table.at[8 * (x >> at & 255) + (k - (sums << 8 >> at & 255))];
}

} // namespace word
