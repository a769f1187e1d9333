/* ngtcp2's reassembler, for which net-base's `StreamRanges` says which part of a frame is new. Its bytes are kept in
   blocks as before, and its list of gaps, at which its tests look, is made anew from the ranges. */
#include "ranges.h"
#define ngtcp2_rob_init original_init
#define ngtcp2_rob_free original_free
#define ngtcp2_rob_push original_push
#define ngtcp2_rob_remove_prefix original_remove_prefix
#include "ngtcp2_rob.c"
#undef ngtcp2_rob_init
#undef ngtcp2_rob_free
#undef ngtcp2_rob_push
#undef ngtcp2_rob_remove_prefix

int ngtcp2_rob_init(ngtcp2_rob *rob, size_t chunk, const ngtcp2_mem *mem) {
    int rv = original_init(rob, chunk, mem);
    if (rv == 0) {
        rob->ranges = ranges_new();
    }
    return rv;
}

void ngtcp2_rob_free(ngtcp2_rob *rob) {
    if (rob != NULL) {
        ranges_free(rob->ranges);
    }
    original_free(rob);
}

static int show_gaps(ngtcp2_rob *rob) {
    ngtcp2_range gap = {0, 0};
    ngtcp2_ksl_it it = ngtcp2_ksl_begin(&rob->gapksl);
    while (!ngtcp2_ksl_it_end(&it)) {
        ngtcp2_rob_gap *g = ngtcp2_ksl_it_get(&it);
        ngtcp2_ksl_remove_hint(&rob->gapksl, &it, &it, &g->range);
        ngtcp2_rob_gap_del(g, rob->mem);
    }
    while (gap.end < UINT64_MAX) {
        ngtcp2_rob_gap *g;
        int rv;
        gap = ranges_gap(rob->ranges, gap.end);
        if (gap.begin == gap.end) {
            break;
        }
        rv = ngtcp2_rob_gap_new(&g, gap.begin, gap.end, rob->mem);
        if (rv == 0) {
            rv = ngtcp2_ksl_insert(&rob->gapksl, NULL, &g->range, g);
        }
        if (rv != 0) {
            return rv;
        }
    }
    return 0;
}

int ngtcp2_rob_push(ngtcp2_rob *rob, uint64_t offset, const uint8_t *data, size_t datalen) {
    for (;;) {
        ngtcp2_range part = ranges_keep(rob->ranges, offset, offset + datalen);
        if (ngtcp2_range_len(&part) == 0) {
            return show_gaps(rob);
        }
        int rv = rob_write_data(rob, part.begin, data + (part.begin - offset), ngtcp2_range_len(&part));
        if (rv != 0) {
            return rv;
        }
    }
}

int ngtcp2_rob_remove_prefix(ngtcp2_rob *rob, uint64_t offset) {
    ngtcp2_range part;
    do {
        part = ranges_keep(rob->ranges, 0, offset);
    } while (ngtcp2_range_len(&part) != 0);
    original_remove_prefix(rob, offset);
    return show_gaps(rob);
}
