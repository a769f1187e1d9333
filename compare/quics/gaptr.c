/* ngtcp2's set of packet numbers and of acknowledged bytes, over net-base's `StreamRanges`. Its list of gaps, at which
   its tests look, is made anew from the ranges. */
#include "ranges.h"
#include "ngtcp2_gaptr.h"

void ngtcp2_gaptr_init(ngtcp2_gaptr *gaptr, const ngtcp2_mem *mem) {
    ngtcp2_ksl_init(&gaptr->gap, ngtcp2_ksl_range_compar, sizeof(ngtcp2_range), mem);
    gaptr->mem = mem;
    gaptr->ranges = ranges_new();
}

void ngtcp2_gaptr_free(ngtcp2_gaptr *gaptr) {
    if (gaptr != NULL) {
        ngtcp2_ksl_free(&gaptr->gap);
        ranges_free(gaptr->ranges);
    }
}

static int show_gaps(ngtcp2_gaptr *gaptr) {
    ngtcp2_range gap = {0, 0};
    int rv = 0;
    ngtcp2_ksl_clear(&gaptr->gap);
    while (rv == 0 && gap.end < UINT64_MAX) {
        gap = ranges_gap(gaptr->ranges, gap.end);
        if (gap.begin == gap.end) {
            break;
        }
        rv = ngtcp2_ksl_insert(&gaptr->gap, NULL, &gap, NULL);
    }
    return rv;
}

int ngtcp2_gaptr_push(ngtcp2_gaptr *gaptr, uint64_t offset, uint64_t datalen) {
    ngtcp2_range part;
    do {
        part = ranges_keep(gaptr->ranges, offset, offset + datalen);
    } while (ngtcp2_range_len(&part) != 0);
    return show_gaps(gaptr);
}

uint64_t ngtcp2_gaptr_first_gap_offset(ngtcp2_gaptr *gaptr) {
    return ranges_gap(gaptr->ranges, 0).begin;
}

ngtcp2_range ngtcp2_gaptr_get_first_gap_after(ngtcp2_gaptr *gaptr, uint64_t offset) {
    return ranges_gap(gaptr->ranges, offset);
}

int ngtcp2_gaptr_is_pushed(ngtcp2_gaptr *gaptr, uint64_t offset, uint64_t datalen) {
    return ranges_gap(gaptr->ranges, offset).begin >= offset + datalen;
}

void ngtcp2_gaptr_drop_first_gap(ngtcp2_gaptr *gaptr) {
    ngtcp2_range gap = ranges_gap(gaptr->ranges, 0);
    ngtcp2_gaptr_push(gaptr, gap.begin, gap.end - gap.begin);
}
