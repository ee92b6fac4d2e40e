// A bitmap of CRoaring that holds the ones of the words, where its headers are installed.
#include <cstddef>
#include <cstdint>

using std::size_t;
using std::uint32_t;
using std::uint64_t;

#if __has_include(<roaring/roaring.h>)
#include <roaring/roaring.h>

namespace {
roaring_bitmap_t *map(void *b) { return static_cast<roaring_bitmap_t *>(b); }
} // namespace

extern "C" {
void *roaring_new(const uint64_t *words, size_t count)
{
    roaring_bitmap_t *b = roaring_bitmap_create();
    for (size_t j = 0; j < count; j++) {
        uint32_t at[64];
        size_t n = 0;
        for (uint64_t x = words[j]; x != 0; x &= x - 1) at[n++] = 64 * j + __builtin_ctzll(x);
        roaring_bitmap_add_many(b, n, at);
    }
    return b;
}
void roaring_delete(void *b) { roaring_bitmap_free(map(b)); }
size_t roaring_rank(void *b, size_t i) { return i == 0 ? 0 : roaring_bitmap_rank(map(b), i - 1); }
size_t roaring_find(void *b, size_t k)
{
    uint32_t p = 0;
    roaring_bitmap_select(map(b), k, &p);
    return p;
}
// by adding, or removing where it was there
void roaring_turn(void *b, size_t i)
{
    if (!roaring_bitmap_add_checked(map(b), i)) roaring_bitmap_remove(map(b), i);
}
// by its own call
void roaring_flip(void *b, size_t i) { roaring_bitmap_flip_inplace(map(b), i, i + 1); }
void roaring_put(void *b, size_t i) { roaring_bitmap_add(map(b), i); }
void roaring_run(void *b, size_t a, size_t e, uint64_t v)
{
    if (v == 1)
        roaring_bitmap_add_range(map(b), a, e);
    else
        roaring_bitmap_remove_range(map(b), a, e);
}
size_t roaring_next(void *b, size_t i)
{
    roaring_uint32_iterator_t it;
    roaring_init_iterator(map(b), &it);
    return roaring_move_uint32_iterator_equalorlarger(&it, i) ? it.current_value : SIZE_MAX;
}
size_t roaring_bytes(void *b) { return roaring_bitmap_size_in_bytes(map(b)); }
}
#else
extern "C" {
void *roaring_new(const uint64_t *, size_t) { return nullptr; }
void roaring_delete(void *) {}
size_t roaring_rank(void *, size_t) { return 0; }
size_t roaring_find(void *, size_t) { return 0; }
void roaring_turn(void *, size_t) {}
void roaring_flip(void *, size_t) {}
void roaring_put(void *, size_t) {}
void roaring_run(void *, size_t, size_t, uint64_t) {}
size_t roaring_next(void *, size_t) { return 0; }
size_t roaring_bytes(void *) { return 0; }
}
#endif
