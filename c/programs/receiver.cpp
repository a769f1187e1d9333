// Tries the class of net_base.hpp.
#include "net_base.hpp"
#include <stdio.h>
#include <string.h>

using Receiver = net_base::Receiver<16, 2>;

// Memory for a value, where C++'s library isn't.
struct Place {
    void *at;
};
void *operator new(size_t, Place place) noexcept { return place.at; }

// The second takes what doesn't become a `bool` by itself.
char taken(bool);
long taken(...);

static int failed;

static void must(bool holds, const char *what) {
    if (holds) return;
    printf("receiver: %s\n", what);
    failed = 1;
}

int main() {
    Receiver receiver(100), none(UINT64_MAX);
    static_assert(sizeof taken(receiver) == sizeof(long), "a receiver is no number");
    must(receiver && !none && none.keep(0, "a", 1, false).status == NET_BASE_SEGMENT_REFUSED, "first");
    // A refused one has nothing of what was in its memory before.
    alignas(Receiver) static unsigned char place[sizeof(Receiver)];
    for (volatile unsigned char &byte : place) byte = 1;
    must((new (Place{place}) Receiver(UINT64_MAX))->head().receiver.count_read == 0, "refused");

    net_base::Kept kept = receiver.keep(105, "order", 5, true);
    must(kept.status == NET_BASE_SEGMENT_DONE && kept.counts.kept == 5 && kept.counts.queued == 0, "beyond a gap");
    must(receiver.keep(101, "n an", 4, true).status == NET_BASE_SEGMENT_OTHER_END, "another end");

    Receiver copy = receiver;
    char text[16];
    kept = copy.keep(100, "in an", 5, false);
    must(kept.counts.queued == 10 && !copy.has_read_all() && copy.read(text, 16) == 10 && memcmp(text, "in anorder", 10) == 0, "in order");
    must(copy.has_read_all() && copy.head().receiver.count_read == 10, "all read");
    must(!receiver.has_read_all() && receiver.read(text, 16) == 0 && !none.has_read_all(), "not of the copy");

    // There is memory for so many bytes and runs, and what is read fills `into`.
    Receiver full(0);
    must(full.keep(0, "0123456789abcdefgh", 18, false).counts.kept == 16 && full.read(text, 16) == 16, "capacity");
    for (uint64_t position = 18; position <= 24; position += 3)
        must(full.keep(position, "x", 1, false).status
                 == (position < 24 ? NET_BASE_SEGMENT_DONE : NET_BASE_SEGMENT_TOO_MANY_RUNS), "runs");
    must(full.keep(16, "yz", 2, false).counts.queued == 3 && full.read(text, 2) == 2, "a part");
    must(full.read(text, 16) == 1 && text[0] == 'x', "the rest");
    if (!failed) printf("receiver: as it should\n");
    return failed;
}
