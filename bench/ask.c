// Sends one request over UDP again and again, each once the reply to the one before has come, and tells how many were answered a second.
// usage: ask PORT KIND COUNT
#include <arpa/inet.h>
#include <stdio.h>
#include <stdlib.h>
#include <string.h>
#include <sys/socket.h>
#include <time.h>
#include <unistd.h>

// The requests, each with community `public` and request-id 1, whose octet is at the place that is told beside it.
struct request {
    const char *kind;
    size_t id;
    size_t length;
    unsigned char octets[48];
};

static const struct request requests[] = {
    // A GetRequest for sysUpTime.0, 1.3.6.1.2.1.1.3.0.
    {"uptime", 17, 40,
     {0x30, 38, 2, 1, 1, 4, 6, 'p', 'u', 'b', 'l', 'i', 'c', 0xa0, 25, 2, 1, 1, 2, 1, 0, 2, 1, 0, 0x30, 14, 0x30, 12, 6, 8, 0x2b, 6, 1, 2, 1,
      1, 3, 0, 5, 0}},
    // A GetNextRequest for the system group, 1.3.6.1.2.1.1.
    {"next-system", 17, 38,
     {0x30, 36, 2, 1, 1, 4, 6, 'p', 'u', 'b', 'l', 'i', 'c', 0xa1, 23, 2, 1, 1, 2, 1, 0, 2, 1, 0, 0x30, 12, 0x30, 10, 6, 6, 0x2b, 6, 1, 2, 1,
      1, 5, 0}},
    // A GetNextRequest for the RMON groups, 1.3.6.1.2.1.16.
    {"next-rmon", 17, 38,
     {0x30, 36, 2, 1, 1, 4, 6, 'p', 'u', 'b', 'l', 'i', 'c', 0xa1, 23, 2, 1, 1, 2, 1, 0, 2, 1, 0, 0x30, 12, 0x30, 10, 6, 6, 0x2b, 6, 1, 2, 1,
      16, 5, 0}},
    // A GetBulkRequest of 20 repetitions from the system group on.
    {"bulk-system", 17, 38,
     {0x30, 36, 2, 1, 1, 4, 6, 'p', 'u', 'b', 'l', 'i', 'c', 0xa5, 23, 2, 1, 1, 2, 1, 0, 2, 1, 20, 0x30, 12, 0x30, 10, 6, 6, 0x2b, 6, 1, 2, 1,
      1, 5, 0}},
    // A GetBulkRequest of 20 repetitions from the RMON groups on.
    {"bulk-rmon", 17, 38,
     {0x30, 36, 2, 1, 1, 4, 6, 'p', 'u', 'b', 'l', 'i', 'c', 0xa5, 23, 2, 1, 1, 2, 1, 0, 2, 1, 20, 0x30, 12, 0x30, 10, 6, 6, 0x2b, 6, 1, 2, 1,
      16, 5, 0}},
};

static double seconds(void) {
    struct timespec now;
    clock_gettime(CLOCK_MONOTONIC, &now);
    return (double)now.tv_sec + (double)now.tv_nsec / 1e9;
}

int main(int count, char **words) {
    if (count != 4) {
        fprintf(stderr, "usage: ask PORT KIND COUNT\n");
        return 2;
    }
    const struct request *request = NULL;
    for (size_t each = 0; each < sizeof requests / sizeof *requests; each++) {
        if (strcmp(requests[each].kind, words[2]) == 0) {
            request = &requests[each];
        }
    }
    long wanted = atol(words[3]);
    if (request == NULL || wanted < 1) {
        fprintf(stderr, "ask: no such kind or count\n");
        return 2;
    }

    struct sockaddr_in agent = {0};
    agent.sin_family = AF_INET;
    agent.sin_port = htons((unsigned short)atoi(words[1]));
    agent.sin_addr.s_addr = htonl(INADDR_LOOPBACK);
    struct timeval limit = {5, 0};
    int link = socket(AF_INET, SOCK_DGRAM, 0);
    if (link < 0 || connect(link, (struct sockaddr *)&agent, sizeof agent) != 0 ||
        setsockopt(link, SOL_SOCKET, SO_RCVTIMEO, &limit, sizeof limit) != 0) {
        perror("ask");
        return 1;
    }

    unsigned char octets[sizeof request->octets];
    unsigned char reply[65536];
    memcpy(octets, request->octets, request->length);
    ssize_t last = 0;
    double start = seconds();
    for (long sent = 0; sent < wanted; sent++) {
        octets[request->id] = (unsigned char)(sent & 0x7f);
        if (send(link, octets, request->length, 0) < 0) {
            perror("ask: send");
            return 1;
        }
        last = recv(link, reply, sizeof reply, 0);
        if (last < 0) {
            perror("ask: recv");
            return 1;
        }
        // The reply has the request-id, and error-status 0, wherever its lengths have let them come to stand.
        unsigned char head[] = {2, 1, (unsigned char)(sent & 0x7f), 2, 1, 0};
        int is_reply = 0;
        for (ssize_t at = 0; at + (ssize_t)sizeof head <= last && at < 32; at++) {
            is_reply |= memcmp(reply + at, head, sizeof head) == 0;
        }
        if (!is_reply) {
            fprintf(stderr, "ask: another reply\n");
            return 1;
        }
    }
    double spent = seconds() - start;
    printf("%ld answered, %.0f a second, %.1f microseconds each, the last of %zd octets\n", wanted, (double)wanted / spent,
           spent * 1e6 / (double)wanted, last);
    close(link);
    return 0;
}
