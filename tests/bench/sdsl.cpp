// The rank and select supports of sdsl-lite over a copy of the words, where its headers are installed.
#include <cstddef>
#include <cstdint>

using std::size_t;
using std::uint64_t;

#if __has_include(<sdsl/bit_vectors.hpp>)
#include <sdsl/bit_vectors.hpp>

namespace {
struct Supports {
    sdsl::bit_vector bits;
    sdsl::rank_support_v<1> rank;
    sdsl::select_support_mcl<1> ones;
    sdsl::select_support_mcl<0> zeros;
    Supports(const uint64_t *words, size_t count) : bits(64 * count)
    {
        for (size_t j = 0; j < count; j++) bits.data()[j] = words[j];
        sdsl::util::init_support(rank, &bits);
        sdsl::util::init_support(ones, &bits);
        sdsl::util::init_support(zeros, &bits);
    }
};
} // namespace

extern "C" {
void *sdsl_new(const uint64_t *words, size_t count) { return new Supports(words, count); }
void sdsl_free(void *s) { delete static_cast<Supports *>(s); }
size_t sdsl_rank(const void *s, size_t i) { return static_cast<const Supports *>(s)->rank(i); }
size_t sdsl_select(const void *s, uint64_t v, size_t k)
{
    auto *supports = static_cast<const Supports *>(s);
    return v == 1 ? supports->ones(k + 1) : supports->zeros(k + 1);
}
size_t sdsl_bytes(const void *s, int select)
{
    auto *supports = static_cast<const Supports *>(s);
    if (!select) return sdsl::size_in_bytes(supports->rank);
    return sdsl::size_in_bytes(supports->ones) + sdsl::size_in_bytes(supports->zeros);
}
}
#else
extern "C" {
void *sdsl_new(const uint64_t *, size_t) { return nullptr; }
void sdsl_free(void *) {}
size_t sdsl_rank(const void *, size_t) { return 0; }
size_t sdsl_select(const void *, uint64_t, size_t) { return 0; }
size_t sdsl_bytes(const void *, int) { return 0; }
}
#endif
