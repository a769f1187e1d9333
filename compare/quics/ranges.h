/* What ranges.rs exports, and what `rob.c` and `gaptr.c` share. run.sh gives ngtcp2's two structures a field `ranges`. */
#include "ngtcp2_ksl.h"
#include "ngtcp2_range.h"

void *ranges_new(void);
void ranges_free(void *ranges);
ngtcp2_range ranges_keep(void *ranges, uint64_t begin, uint64_t end);
ngtcp2_range ranges_gap(const void *ranges, uint64_t pos);
