// Reads a capture once, record by record through the buffer of stdio, and counts its frames and their octets. With the word
// `tables` before it, it also keeps how many frames and octets each host has sent and received, and each pair of hosts has exchanged,
// in hash tables. It is for classic pcap files with the lowest octet of each number first, on a machine that has them so too.
#include <inttypes.h>
#include <stdint.h>
#include <stdio.h>
#include <string.h>

enum { MOST_LENGTH = 262144, ADDRESS = 6, PAIR = 12, SLOTS = 1 << 16 };

struct file_header {
    uint32_t magic;
    uint16_t major, minor;
    uint32_t zone, accuracy, greatest_length, link_type;
};

struct record_header {
    uint32_t seconds, microseconds, included, original;
};

// A row of a table: its key, the second half of which is 0 for a host, and what it counted. A row without frames isn't in use.
struct row {
    unsigned char key[PAIR];
    uint64_t frames, octets;
};

// A table, which has more slots than it is asked to hold rows.
struct table {
    struct row rows[SLOTS];
    uint64_t used;
};

static struct table hosts, pairs;

static int is_wanted(const struct file_header *header) {
    return header->magic == 0xa1b2c3d4 && header->major == 2 && header->minor == 4 && header->link_type == 1;
}

static int fail(const char *fault) {
    fprintf(stderr, "plain_reader: %s\n", fault);
    return 1;
}

// Counts a frame in the row of a key, which stands in the first slot from its own on that is free or has the key.
static void count_key(struct table *table, const unsigned char *key, uint32_t octets) {
    uint32_t hash = 2166136261u;
    for (int place = 0; place < PAIR; place++)
        hash = (hash ^ key[place]) * 16777619u;
    struct row *row = &table->rows[hash % SLOTS];
    while (row->frames && memcmp(row->key, key, PAIR))
        row = row + 1 == table->rows + SLOTS ? table->rows : row + 1;
    if (!row->frames) {
        memcpy(row->key, key, PAIR);
        table->used += 1;
    }
    row->frames += 1;
    row->octets += octets;
}

static void count_addresses(const unsigned char *frame, uint32_t octets) {
    unsigned char key[PAIR] = {0};
    memcpy(key, frame, ADDRESS);
    count_key(&hosts, key, octets);
    memcpy(key, frame + ADDRESS, ADDRESS);
    count_key(&hosts, key, octets);
    count_key(&pairs, frame, octets);
}

int main(int count, char **words) {
    static unsigned char frame[MOST_LENGTH];
    struct file_header header;
    struct record_header record;
    uint64_t frames = 0, octets = 0;
    size_t got;

    int keeps_tables = count == 3 && strcmp(words[1], "tables") == 0;
    FILE *file = count == 2 + keeps_tables ? fopen(words[1 + keeps_tables], "rb") : NULL;
    if (!file)
        return fail("no capture");
    if (fread(&header, 1, sizeof header, file) != sizeof header || !is_wanted(&header))
        return fail("bad file header");
    while ((got = fread(&record, 1, sizeof record, file)) == sizeof record) {
        if (record.included > MOST_LENGTH || record.original > MOST_LENGTH)
            return fail("bad length");
        if (fread(frame, 1, record.included, file) != record.included)
            return fail("cut record");
        frames += 1;
        octets += record.original;
        if (keeps_tables && record.included >= PAIR)
            count_addresses(frame, record.original);
    }
    if (got != 0 || ferror(file))
        return fail("cut record");
    printf("frames %" PRIu64 " octets %" PRIu64, frames, octets);
    if (keeps_tables)
        printf(" hosts %" PRIu64 " pairs %" PRIu64, hosts.used, pairs.used);
    printf("\n");
    return 0;
}
