/* Headers of IPv4 and TCP, as tcp.c writes and reads them: checksums, and the options MSS, window
 * scale, SACK-permitted and SACK.
 */
#ifndef HEADERS_H
#define HEADERS_H
#include "net_bound.h"
#include <string.h>

enum { IP = 20, TCP = 20, PACKET = 1500, MSS = PACKET - IP - TCP, BLOCKS = 4 };
enum { FIN = 1, SYN = 2, RST = 4, ACK = 16 };

/* An address and a port, as in headers. */
struct place {
    uint8_t address[4], port[2];
};

/* What the headers of a segment say. */
struct header {
    struct place from, to;
    uint32_t number, acknowledged, blocks[BLOCKS][2];
    uint16_t window, mss; /* 0: the segment doesn't say */
    uint8_t flags, scale;
    bool has_scale, selective;
    size_t block_count;
};

static inline void put16(uint8_t *at, size_t value) {
    at[0] = (uint8_t)(value >> 8);
    at[1] = (uint8_t)value;
}

static inline void put32(uint8_t *at, uint32_t value) {
    put16(at, value >> 16);
    put16(at + 2, value);
}

static inline uint16_t get16(const uint8_t *at) {
    return (uint16_t)(at[0] << 8 | at[1]);
}

static inline uint32_t get32(const uint8_t *at) {
    return (uint32_t)get16(at) << 16 | get16(at + 2);
}

/* The checksum of a header of IP; or of a segment, whose pseudo-header begins with `addresses`. A
 * message that has its checksum has the checksum 0. */
static inline uint16_t checksum_of(const uint8_t *addresses, const uint8_t *message, size_t size) {
    struct net_base_parts_sum sum;
    uint8_t rest[4] = {0, 6, 0, 0};
    put16(rest + 2, size);
    net_base_parts_sum_init(&sum);
    if (addresses != NULL) {
        net_base_parts_sum_add(&sum, addresses, 8);
        net_base_parts_sum_add(&sum, rest, sizeof rest);
    }
    net_base_parts_sum_add(&sum, message, size);
    return net_base_parts_sum_checksum(&sum);
}

/* Writes the options of a header, and returns how many bytes they have: whole words, 40 at most. */
static inline size_t put_options(uint8_t *at, const struct header *h) {
    uint32_t words[10];
    size_t count = 0;
    if (h->mss > 0) words[count++] = 0x02040000U | h->mss;
    if (h->has_scale) words[count++] = 0x01030300U | h->scale;
    if (h->selective) words[count++] = 0x01010402U;
    if (h->block_count > 0) words[count++] = 0x01010502U + 8 * (uint32_t)h->block_count;
    for (size_t i = 0; i < 2 * h->block_count && count < 10; i++)
        words[count++] = h->blocks[i / 2][i % 2];
    for (size_t i = 0; i < count; i++) put32(at + 4 * i, words[i]);
    return 4 * count;
}

/* Writes the packet of a segment, whose bytes are in two parts, and returns its size. */
static inline size_t put_packet(uint8_t *packet, const struct header *h, const uint8_t *front,
    size_t front_size, const uint8_t *back, size_t back_size) {
    static const uint8_t IP_HEADER[12] = {0x45, 0, 0, 0, 0, 0, 0x40, 0, 64, 6, 0, 0};
    uint8_t *tcp = packet + IP;
    size_t header = TCP + put_options(tcp + TCP, h), size = header + front_size + back_size;
    memcpy(packet, IP_HEADER, sizeof IP_HEADER);
    put16(packet + 2, IP + size);
    memcpy(packet + 12, h->from.address, 4);
    memcpy(packet + 16, h->to.address, 4);
    put16(packet + 10, checksum_of(NULL, packet, IP));
    memcpy(tcp, h->from.port, 2);
    memcpy(tcp + 2, h->to.port, 2);
    put32(tcp + 4, h->number);
    put32(tcp + 8, h->acknowledged);
    tcp[12] = (uint8_t)(header << 2);
    tcp[13] = h->flags;
    put16(tcp + 14, h->window);
    put32(tcp + 16, 0);
    memcpy(tcp + header, front, front_size);
    memcpy(tcp + header + front_size, back, back_size);
    put16(tcp + 16, checksum_of(packet + 12, tcp, size));
    return IP + size;
}

/* Reads the options that are whole, and passes over those that aren't known. */
static inline void get_options(struct header *h, const uint8_t *at, size_t left) {
    while (left > 0 && at[0] != 0) {
        size_t size = at[0] == 1 ? 1 : left > 1 ? at[1] : 0;
        if (size > left || (size < 2 && at[0] != 1)) return;
        if (at[0] == 2 && size == 4) h->mss = get16(at + 2);
        if (at[0] == 3 && size == 3) {
            h->has_scale = true;
            h->scale = at[2] < 14 ? at[2] : 14;
        }
        if (at[0] == 4 && size == 2) h->selective = true;
        for (size_t i = 2; at[0] == 5 && i + 8 <= size && h->block_count < BLOCKS; i += 8) {
            h->blocks[h->block_count][0] = get32(at + i);
            h->blocks[h->block_count++][1] = get32(at + i + 4);
        }
        at += size;
        left -= size;
    }
}

/* Reads the headers of a packet. Returns where the segment's bytes are, and writes to `size` how
 * many; or NULL if the packet isn't a whole and sound one of TCP. */
static inline const uint8_t *get_packet(const uint8_t *packet, size_t *size, struct header *h) {
    memset(h, 0, sizeof *h);
    if (*size < IP || packet[0] >> 4 != 4 || packet[9] != 6) return NULL;
    size_t ip = (size_t)(packet[0] & 15) * 4, whole = get16(packet + 2);
    if (ip < IP || whole > *size || whole < ip + TCP || checksum_of(NULL, packet, ip) != 0)
        return NULL;
    const uint8_t *tcp = packet + ip;
    size_t header = (size_t)(tcp[12] >> 4) * 4;
    bool is_fragment = (get16(packet + 6) & 0x3fff) != 0;
    if (is_fragment || header < TCP || header > whole - ip
        || checksum_of(packet + 12, tcp, whole - ip) != 0)
        return NULL;
    memcpy(h->from.address, packet + 12, 4);
    memcpy(h->to.address, packet + 16, 4);
    memcpy(h->from.port, tcp, 2);
    memcpy(h->to.port, tcp + 2, 2);
    h->number = get32(tcp + 4);
    h->acknowledged = get32(tcp + 8);
    h->flags = tcp[13];
    h->window = get16(tcp + 14);
    get_options(h, tcp + TCP, header - TCP);
    *size = whole - ip - header;
    return tcp + header;
}
#endif
