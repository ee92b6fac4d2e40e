/* The display's six functions on any bytes, for a coverage-guided fuzzer (libFuzzer), each answer held to
 * common/judge.h. The library itself is not instrumented: the fuzzer sees the branches of the judge, and what kind of
 * answer each call gave.
 *
 * An input is 16 bytes of arguments and then the image: label, v, flags, a row's place in the chain; i in four bytes; k
 * in four; four unused. The image is lent only to read, flush against a closed page, at its end or at its start.
 *
 * With REPLAY the program runs the files that it is given, and tells how many calls that were. */
#include "lend.h"

#include "display.h"
#include "judge.h"

#include <inttypes.h>

/* The most bytes of an image are those of one that the longest row fills. */
enum { PREFIX = 16, MOST = 16 + 16 + 528 * 32768 };
enum { INSPECT, RANK, SELECT, GET, LENGTH, LABEL, CALLS };

static const char *const names[CALLS] = {"image_inspect", "image_row_rank",   "image_row_select",
                                         "image_row_get", "image_row_length", "image_row_label"};
static struct memory memory;
static uint64_t calls[CALLS];

/* What kind of answer each call gave, for the fuzzer: refusals by number, values by their size. */
#ifndef REPLAY
__attribute__((section("__libfuzzer_extra_counters")))
#endif
static uint8_t kinds[CALLS][2][64];

static void note(int call, int right, uint64_t told)
{
    unsigned size = 16;
    for (uint64_t value = told; value != 0 && !STRIP_REFUSED(told); value /= 2)
        size++;
    kinds[call][right][STRIP_REFUSED(told) ? STRIP_REFUSAL(told) % 16 : size] = 1;
    calls[call]++;
}

static void hold(int call, int allowed, const struct row *row, uint64_t x, uint64_t y, uint64_t told)
{
    note(call, row != NULL && row->right, told);
    if (allowed)
        return;
    printf("%s: told %" PRIu64 " for %" PRIu64 ", %" PRIu64 " on a %s row\n", names[call], told, x, y,
           row == NULL  ? "missing"
           : row->right ? "right"
                        : "wrong");
    fflush(stdout);
    abort();
}

/* The three readings of a label's row, and its length. */
static void read_row(const struct judged *j, struct lent l, uint64_t label, uint64_t v, uint64_t i, uint64_t k)
{
    struct opened o = open_row(j, label);
    uint64_t told = image_row_rank(l.read, l.length, label, v, i);
    hold(RANK, rank_allowed(o, v, i, told), o.row, v, i, told);
    told = image_row_select(l.read, l.length, label, v, k);
    hold(SELECT, select_allowed(o, v, k, told), o.row, v, k, told);
    told = image_row_get(l.read, l.length, label, i);
    hold(GET, told == get_answer(o, i), o.row, i, 0, told);
    told = image_row_length(l.read, l.length, label);
    hold(LENGTH, told == length_answer(o), o.row, label, 0, told);
}

/* The label at a place in the chain. */
static void read_place(const struct judged *j, struct lent l, uint64_t place)
{
    uint64_t told = image_row_label(l.read, l.length, place);
    hold(LABEL, told == label_answer(j, place), j->sound && place < j->count ? &j->rows[place] : NULL, place, 0, told);
}

/* A row at its ends and near a position: of each value the last that there is, by its own count, and one more; and with
 * arguments that would be good if they were cut to 32 bits. */
static void read_edges(const struct judged *j, struct lent l, const struct row *row, uint64_t i, uint64_t k)
{
    uint64_t length = row->length, ones = ones_before(row, length);
    uint64_t zeros = length - ones, inside = length == 0 ? 0 : i % length, block = inside / 512 * 512;
    read_row(j, l, row->label, 1, length, ones - 1);
    read_row(j, l, row->label, 1, inside, ones);
    read_row(j, l, row->label, 0, length - 1, zeros - 1);
    read_row(j, l, row->label, 0, length + 1, zeros);
    read_row(j, l, row->label, 1, block, ones == 0 ? 0 : k % ones);
    read_row(j, l, row->label, 0, block + 511, zeros == 0 ? 0 : k % zeros);
    read_row(j, l, row->label, 1, inside + WIDE, WIDE);
    read_row(j, l, row->label, 1 + WIDE, inside, 0);
    read_row(j, l, row->label + WIDE, 1, inside, 0);
}

int LLVMFuzzerTestOneInput(const uint8_t *data, size_t size)
{
    static struct judged j;
    if (size < PREFIX || size > PREFIX + MOST)
        return 0;
    if (memory.size == 0)
        memory = memory_of(MOST);
    unsigned flags = data[2];
    struct lent l = lend(&memory, size - PREFIX, flags & 16 ? 0 : 1);
    if (l.length > 0)
        memcpy(l.write, data + PREFIX, l.length);
    else
        l.read = flags & 32 ? NULL : l.read;
    judge(&j, data + PREFIX, l.length);

    uint64_t told = image_inspect(l.read, l.length);
    hold(INSPECT, told == inspect_answer(&j), NULL, 0, 0, told);
    uint64_t i = little_endian(data + 4, 4), k = little_endian(data + 8, 4);
    read_row(&j, l, data[0] + (flags & 1 ? WIDE : 0), data[1] + (flags & 2 ? WIDE : 0), i + (flags & 4 ? WIDE : 0),
             k + (flags & 8 ? WIDE : 0));
    read_place(&j, l, data[3] + (flags & 64 ? WIDE : 0));
    for (unsigned r = 0; j.sound && r < j.count; r++) {
        read_edges(&j, l, &j.rows[r], i, k);
        read_place(&j, l, r);
        read_place(&j, l, r + WIDE);
    }
    read_place(&j, l, j.count);
    must(l.length == 0 || memcmp(l.write, data + PREFIX, l.length) == 0, "the image changed");
    l.read = l.write - l.of->write + l.of->read;
    give_back(l);
    return 0;
}

#ifdef REPLAY
int main(int count, char **files)
{
    static uint8_t data[PREFIX + MOST];
    for (int f = 1; f < count; f++) {
        FILE *file = fopen(files[f], "rb");
        must(file != NULL, "a file that cannot be read");
        size_t size = fread(data, 1, sizeof data, file);
        fclose(file);
        LLVMFuzzerTestOneInput(data, size);
    }
    uint64_t all = 0;
    for (int call = 0; call < CALLS; call++)
        all += calls[call];
    printf("%d images, %" PRIu64 " calls\n", count - 1, all);
    return all > 0 ? 0 : 1;
}
#else
size_t LLVMFuzzerMutate(uint8_t *data, size_t size, size_t most);

/* Makes the header's fixed bytes right, and every row of a sound chain. */
static void repair(uint8_t *image, size_t size)
{
    struct judged j;
    if (size < 16)
        return;
    store(image + 4, 4, 1);
    store(image + 8, 8, 0);
    judge(&j, image, size);
    for (unsigned r = 0; r < j.count; r++)
        make_right(image + j.rows[r].start);
}

static unsigned drawn(unsigned *seed)
{
    *seed = *seed * 1103515245 + 12345;
    return *seed >> 8;
}

/* One more row at the end of a sound chain, past a gap at times: the image's new size. */
static size_t append(uint8_t *image, size_t size, size_t most, unsigned *seed)
{
    struct judged j;
    judge(&j, image, size);
    if (!j.sound || j.count == ROWS)
        return size;
    uint64_t link = j.count == 0 ? 0 : j.rows[j.count - 1].start;
    uint64_t start = next_start(&j) + (drawn(seed) % 4 == 0 ? 16 : 0);
    uint64_t whole = 4096 * (drawn(seed) % (most / 600));
    uint64_t length = drawn(seed) % 3 == 0 ? whole + drawn(seed) % 3 : drawn(seed) % 12000;
    uint64_t label = 1 + drawn(seed) % 64, end = start + record_size(length);
    if (end > most || row_of(&j, label) != NULL)
        return size;
    size = size < end ? end : size;
    memset(image + start, 0, end - start);
    store(image + start + 4, 4, label);
    store(image + start + 8, 4, length);
    unsigned dense = drawn(seed) % 4;
    for (uint64_t b = start + 16 + 16 * superblocks(length); b < end && dense > 0; b++)
        image[b] = (uint8_t)(dense == 1 ? drawn(seed) & drawn(seed) & drawn(seed) : dense == 2 ? drawn(seed) : 255);
    make_right(image + start);
    store(image + link, 4, start / 16);
    return size;
}

size_t LLVMFuzzerCustomMutator(uint8_t *data, size_t size, size_t most, unsigned seed)
{
    unsigned way = drawn(&seed) % 8;
    if (way == 7 && size >= PREFIX && most >= PREFIX + 600)
        return PREFIX + append(data + PREFIX, size - PREFIX, most - PREFIX, &seed);
    size = LLVMFuzzerMutate(data, size, most);
    if (way < 4 || size < PREFIX)
        return size;
    repair(data + PREFIX, size - PREFIX);
    if (way == 6 && size > PREFIX + 16) /* and one byte past the header wrong */
        data[PREFIX + 16 + drawn(&seed) % (size - PREFIX - 16)] ^= (uint8_t)(1 << drawn(&seed) % 8);
    return size;
}
#endif
