/* Calls each export at the values of tools/exports.txt. Written by `python3 tools/ffi.py --tests`. */
/* Null is passed on purpose. */
#pragma GCC diagnostic ignored "-Wnonnull"
#include "net_base.h"
#include <stdio.h>
#include <stdlib.h>
#include <string.h>

static int checks;

static void check(bool holds, const char *text, int line) {
    checks++;
    if (holds) return;
    printf("exports.c:%d: %.300s is false\n", line, text);
    exit(1);
}

/* Whether what is after a slice is as it was. */
static bool is_zero(const void *at, size_t size) {
    const uint8_t *bytes = at;
    while (size && bytes[size - 1] == 0) size--;
    return size == 0;
}

#define CHECK(condition) check((condition), #condition, __LINE__)
/* What a refused call returns in place of a `uint64_t`: 0 by net_bound.h's calls, as NET_BASE_NONE is 0 there. */
#define NO_NUMBER (NET_BASE_NONE ? UINT64_MAX : 0)

static const uint8_t *text(const char *bytes) {
    return (const uint8_t *)bytes;
}
// ROWS

int main(int count, char **words) {
    static const uint8_t bytes[] = {0, 0, 7};
    (void)words;
    CHECK(is_zero(bytes, 2) && !is_zero(bytes, 3));
    check_exports();
    /* With an argument it must fail. */
    CHECK(count < 2);
    printf("exports: %d checks passed\n", checks);
    return 0;
}
