/* An access that a run has to report, as the library might make one: probe past|before|write|beside|unset|none. The first
 * three meet a closed page or a view that cannot be written; the next two only valgrind sees; none makes no access. */
#include "lend.h"

#define PLAIN __attribute__((noinline, no_sanitize("address"), no_sanitize("undefined")))

PLAIN static uint8_t load(const volatile uint8_t *at)
{
    return *at;
}

PLAIN static void store(volatile uint8_t *at)
{
    *at = 1;
}

int main(int count, char **args)
{
    const char *way = count == 2 ? args[1] : "";
    struct memory m = memory_of(100);
    struct lent end = lend(&m, 100, 1), start;
    if (strcmp(way, "past") == 0)
        load(end.read + 100);
    else if (strcmp(way, "beside") == 0)
        load(end.read - 1);
    give_back(end);
    start = lend(&m, 100, 0);
    VALGRIND_MAKE_MEM_UNDEFINED(start.write, 100);
    if (strcmp(way, "before") == 0)
        load(start.read - 1);
    else if (strcmp(way, "write") == 0)
        store(start.read);
    else if (strcmp(way, "unset") == 0 && load(start.write) == 1)
        puts("a byte that was not set");
    return 0;
}
