/* Prints of each call of a connection how many instructions it takes at most and on average, in the streams of
 * programs/stream.c: as the emulator counts them, with what counts. */
#include "net_bound.h"
#include "count.h"
#include <stdio.h>
#include <string.h>

static struct {
    const char *name;
    unsigned count, most;
    unsigned long long sum;
} calls[16];

static void note(const char *name, unsigned taken) {
    unsigned k = 0;
    while (calls[k].name && strcmp(calls[k].name, name) != 0) k++;
    calls[k].name = name, calls[k].count++, calls[k].sum += taken;
    if (taken > calls[k].most) calls[k].most = taken;
}

#define COUNTED(name, ...)                             \
    __extension__({                                    \
        unsigned begin = counter();                        \
        __auto_type result = net_bound_##name(__VA_ARGS__); \
        note(#name, since(begin));                     \
        result;                                        \
    })
#define net_bound_sending_end_write(...) COUNTED(sending_end_write, __VA_ARGS__)
#define net_bound_sending_end_next_segment(...) COUNTED(sending_end_next_segment, __VA_ARGS__)
#define net_bound_sending_end_bytes(...) COUNTED(sending_end_bytes, __VA_ARGS__)
#define net_bound_sending_end_acknowledged(...) COUNTED(sending_end_acknowledged, __VA_ARGS__)
#define net_bound_sending_end_expired(...) COUNTED(sending_end_expired, __VA_ARGS__)
#define net_bound_receiving_end_classify(...) COUNTED(receiving_end_classify, __VA_ARGS__)
#define net_bound_receiving_end_arrived(...) COUNTED(receiving_end_arrived, __VA_ARGS__)
#define net_bound_receiving_end_acknowledgement(...) COUNTED(receiving_end_acknowledgement, __VA_ARGS__)
#define net_bound_receiving_end_read(...) COUNTED(receiving_end_read, __VA_ARGS__)
#pragma push_macro("main")
#undef main
#define main streams
#include "programs/stream.c"
#pragma pop_macro("main")

int main(void) {
    streams(0, NULL);
    for (unsigned k = 0; k < sizeof calls / sizeof calls[0] && calls[k].name; k++)
        printf("longest: %s %u %llu\n", calls[k].name, calls[k].most, calls[k].sum / calls[k].count);
    return 0;
}
