// Asks a server, for bin/server-costs: sends requests, each on a connection of its own, and reads each reply to its
// end. A few are sent ahead of the replies, so that the server never waits for a request.
//
// asking PORT AHEAD: takes the requests from standard input, each behind a line with its length, and prints how many
// nanoseconds passed until the last reply had ended. Each must be good.
#define _GNU_SOURCE
#include <arpa/inet.h>
#include <stdio.h>
#include <stdlib.h>
#include <string.h>
#include <sys/socket.h>
#include <time.h>
#include <unistd.h>

enum { MOST_AHEAD = 64, MOST_REQUESTS = 1000000 };

struct request {
    char *text;
    size_t length;
};

static struct request requests[MOST_REQUESTS];

static void fail(const char *what) {
    fprintf(stderr, "asking: %s\n", what);
    exit(1);
}

static int read_requests(void) {
    int count = 0;
    for (size_t length; scanf("%zu", &length) == 1; count++) {
        if (count == MOST_REQUESTS || getchar() != '\n') fail("bad requests");
        char *text = malloc(length);
        if (!text || fread(text, 1, length, stdin) != length) fail("bad requests");
        requests[count] = (struct request){text, length};
    }
    return count;
}

static int sent(int port, const struct request *request) {
    struct sockaddr_in address = {AF_INET, htons((uint16_t)port), {htonl(INADDR_LOOPBACK)}, {0}};
    int link = socket(AF_INET, SOCK_STREAM, 0);
    if (connect(link, (struct sockaddr *)&address, sizeof address)) fail("no connection");
    if (send(link, request->text, request->length, 0) != (ssize_t)request->length) fail("a request was not sent");
    return link;
}

static void take_reply(int link) {
    char reply[65536];
    size_t have = 0;
    ssize_t more;
    while ((more = recv(link, reply + have, sizeof reply - have, 0)) > 0) have += (size_t)more;
    if (more < 0 || have < 16 || memcmp(reply, "HTTP/1.1 200 OK\r", 16)) {
        fwrite(reply, 1, have, stderr);
        fail("a bad reply");
    }
    close(link);
}

static long long now(void) {
    struct timespec time;
    clock_gettime(CLOCK_MONOTONIC, &time);
    return time.tv_sec * 1000000000LL + time.tv_nsec;
}

int main(int words, char **word) {
    int links[MOST_AHEAD], port = words == 3 ? atoi(word[1]) : 0, ahead = words == 3 ? atoi(word[2]) : 0;
    if (port < 1 || ahead < 1 || ahead > MOST_AHEAD) return 2;
    int count = read_requests();
    long long start = now();
    for (int at = 0; at < count + ahead; at++) {
        if (at >= ahead) take_reply(links[at % ahead]);
        if (at < count) links[at % ahead] = sent(port, &requests[at]);
    }
    printf("%lld\n", now() - start);
    return 0;
}
