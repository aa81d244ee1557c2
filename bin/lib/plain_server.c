// A plain server of one thread over the C library of SQLite, beside which bin/server-costs measures the desk.
//
// It serves a book that the desk made, one connection after another, and replies as the desk does to what the measure
// asks for: an order that settles at once, and an account. All else is replied with 400. The accounts are in memory, as
// they are in the desk. An order is kept as the desk keeps it: its reference is looked up, and then its row, its mark
// and two balances are written in one transaction, which is synced. The statements are prepared once.
//
// plain_server BOOK COUNT: serves COUNT connections, and prints `listening` with its port first.
#define _GNU_SOURCE
#include <arpa/inet.h>
#include <sqlite3.h>
#include <stdint.h>
#include <stdio.h>
#include <stdlib.h>
#include <string.h>
#include <strings.h>
#include <sys/socket.h>
#include <sys/time.h>
#include <unistd.h>

enum { MOST_ACCOUNTS = 1000, ROOM = 16384, SECONDS = 5, KEY_LENGTH = 32, DIGEST = 32 };

struct account {
    char code[16], name[64];
    uint8_t key[DIGEST];
    long long credit, balance;
};

// A piece of a text, which does not end with a zero.
struct part {
    const char *at;
    size_t length;
};

struct request {
    struct part method, target, key, body;
};

struct order {
    struct part reference, to;
    long long amount;
};

enum { FIND, BEGIN, ADD_ORDER, ADD_MARK, SET_BALANCE, COMMIT, STATEMENTS };

static const char *const TEXTS[STATEMENTS] = {
    "SELECT number FROM payment WHERE sender = ?1 AND reference = ?2",
    "BEGIN IMMEDIATE",
    "INSERT INTO payment (number, sender, reference, receiver, amount, date, state, mark)"
    " VALUES (?1, ?2, ?3, ?4, ?5, ?6, 1, ?7)",
    "INSERT INTO mark (number, date, many, value) VALUES (?1, ?2, 1, ?3)",
    "UPDATE participant SET balance = ?2 WHERE code = ?1",
    "COMMIT",
};

static sqlite3 *book;
static sqlite3_stmt *statements[STATEMENTS];
static struct account accounts[MOST_ACCOUNTS];
static int account_count, is_open;
static long long orders, marks;
static char date[16];

static void fail(const char *what) {
    fprintf(stderr, "plain_server: %s: %s\n", what, book ? sqlite3_errmsg(book) : "no book");
    exit(1);
}

// The digest of a key (FIPS 180-4), which has one block.

static const uint32_t ROUNDS[64] = {
    0x428a2f98, 0x71374491, 0xb5c0fbcf, 0xe9b5dba5, 0x3956c25b, 0x59f111f1, 0x923f82a4, 0xab1c5ed5, 0xd807aa98,
    0x12835b01, 0x243185be, 0x550c7dc3, 0x72be5d74, 0x80deb1fe, 0x9bdc06a7, 0xc19bf174, 0xe49b69c1, 0xefbe4786,
    0x0fc19dc6, 0x240ca1cc, 0x2de92c6f, 0x4a7484aa, 0x5cb0a9dc, 0x76f988da, 0x983e5152, 0xa831c66d, 0xb00327c8,
    0xbf597fc7, 0xc6e00bf3, 0xd5a79147, 0x06ca6351, 0x14292967, 0x27b70a85, 0x2e1b2138, 0x4d2c6dfc, 0x53380d13,
    0x650a7354, 0x766a0abb, 0x81c2c92e, 0x92722c85, 0xa2bfe8a1, 0xa81a664b, 0xc24b8b70, 0xc76c51a3, 0xd192e819,
    0xd6990624, 0xf40e3585, 0x106aa070, 0x19a4c116, 0x1e376c08, 0x2748774c, 0x34b0bcb5, 0x391c0cb3, 0x4ed8aa4a,
    0x5b9cca4f, 0x682e6ff3, 0x748f82ee, 0x78a5636f, 0x84c87814, 0x8cc70208, 0x90befffa, 0xa4506ceb, 0xbef9a3f7,
    0xc67178f2,
};

static uint32_t turned(uint32_t word, int by) { return word >> by | word << (32 - by); }

static void mix(uint32_t state[8], const uint32_t words[64]) {
    uint32_t s[8];
    memcpy(s, state, sizeof s);
    for (int i = 0; i < 64; i++) {
        uint32_t of_e = turned(s[4], 6) ^ turned(s[4], 11) ^ turned(s[4], 25);
        uint32_t of_a = turned(s[0], 2) ^ turned(s[0], 13) ^ turned(s[0], 22);
        uint32_t first = s[7] + of_e + ((s[4] & s[5]) ^ (~s[4] & s[6])) + ROUNDS[i] + words[i];
        uint32_t second = of_a + ((s[0] & s[1]) ^ (s[0] & s[2]) ^ (s[1] & s[2]));
        memmove(s + 1, s, 7 * sizeof *s);
        s[4] += first;
        s[0] = first + second;
    }
    for (int i = 0; i < 8; i++) state[i] += s[i];
}

static void digest_of(const char *key, uint8_t digest[DIGEST]) {
    uint32_t state[8] = {0x6a09e667, 0xbb67ae85, 0x3c6ef372, 0xa54ff53a, 0x510e527f, 0x9b05688c, 0x1f83d9ab,
                         0x5be0cd19};
    uint32_t words[64] = {[8] = 0x80000000, [15] = 8 * KEY_LENGTH};
    for (int i = 0; i < 8; i++) {
        memcpy(words + i, key + 4 * i, 4);
        words[i] = ntohl(words[i]);
    }
    for (int i = 16; i < 64; i++) {
        uint32_t low = words[i - 15], high = words[i - 2];
        words[i] = words[i - 16] + (turned(low, 7) ^ turned(low, 18) ^ low >> 3) + words[i - 7]
                   + (turned(high, 17) ^ turned(high, 19) ^ high >> 10);
    }
    mix(state, words);
    for (int i = 0; i < 8; i++) {
        uint32_t word = htonl(state[i]);
        memcpy(digest + 4 * i, &word, 4);
    }
}

// The book

static sqlite3_stmt *prepared(const char *text) {
    sqlite3_stmt *made;
    if (sqlite3_prepare_v3(book, text, -1, SQLITE_PREPARE_PERSISTENT, &made, 0) != SQLITE_OK) fail(text);
    return made;
}

static void copy_text(char *to, size_t room, sqlite3_stmt *row, int column) {
    const char *text = (const char *)sqlite3_column_text(row, column);
    snprintf(to, room, "%s", text ? text : "");
}

static void load_accounts(void) {
    sqlite3_stmt *rows = prepared("SELECT code, name, key, credit, balance FROM participant ORDER BY rowid");
    while (sqlite3_step(rows) == SQLITE_ROW) {
        if (account_count == MOST_ACCOUNTS) fail("too many participants");
        struct account *it = &accounts[account_count++];
        copy_text(it->code, sizeof it->code, rows, 0);
        copy_text(it->name, sizeof it->name, rows, 1);
        memcpy(it->key, sqlite3_column_blob(rows, 2), DIGEST);
        it->credit = sqlite3_column_int64(rows, 3);
        it->balance = sqlite3_column_int64(rows, 4);
    }
    sqlite3_finalize(rows);
}

static void load(const char *path) {
    if (sqlite3_open(path, &book) != SQLITE_OK) fail(path);
    // the desk, too, is the only one that uses the file
    const char *modes = "PRAGMA locking_mode = EXCLUSIVE; PRAGMA journal_mode = WAL; PRAGMA synchronous = FULL";
    if (sqlite3_exec(book, modes, 0, 0, 0) != SQLITE_OK) fail(modes);
    for (int i = 0; i < STATEMENTS; i++) statements[i] = prepared(TEXTS[i]);
    load_accounts();
    const char *text = "SELECT date, phase, (SELECT count(*) FROM payment), (SELECT count(*) FROM mark) FROM desk";
    sqlite3_stmt *day = prepared(text);
    if (sqlite3_step(day) != SQLITE_ROW) fail("no day");
    copy_text(date, sizeof date, day, 0);
    is_open = sqlite3_column_int(day, 1) == 1;
    orders = sqlite3_column_int64(day, 2);
    marks = sqlite3_column_int64(day, 3);
    sqlite3_finalize(day);
}

static void bind_text(int which, int place, struct part text) {
    sqlite3_bind_text(statements[which], place, text.at, (int)text.length, SQLITE_STATIC);
}

static void bind_code(int which, int place, const struct account *it) {
    bind_text(which, place, (struct part){it->code, strlen(it->code)});
}

static void bind_date(int which, int place) { bind_text(which, place, (struct part){date, strlen(date)}); }

static void bind_number(int which, int place, long long number) {
    sqlite3_bind_int64(statements[which], place, number);
}

static int stepped(int which) {
    int answer = sqlite3_step(statements[which]);
    sqlite3_reset(statements[which]);
    if (answer != SQLITE_ROW && answer != SQLITE_DONE) fail(TEXTS[which]);
    return answer == SQLITE_ROW;
}

static void set_balance(struct account *it, long long balance) {
    bind_code(SET_BALANCE, 1, it);
    bind_number(SET_BALANCE, 2, balance);
    stepped(SET_BALANCE);
}

static int is_known(const struct account *sender, const struct order *order) {
    bind_code(FIND, 1, sender);
    bind_text(FIND, 2, order->reference);
    return stepped(FIND);
}

static void keep(struct account *sender, struct account *receiver, const struct order *order) {
    stepped(BEGIN);
    bind_number(ADD_ORDER, 1, orders + 1);
    bind_code(ADD_ORDER, 2, sender);
    bind_text(ADD_ORDER, 3, order->reference);
    bind_code(ADD_ORDER, 4, receiver);
    bind_number(ADD_ORDER, 5, order->amount);
    bind_date(ADD_ORDER, 6);
    bind_number(ADD_ORDER, 7, marks + 1);
    stepped(ADD_ORDER);
    bind_number(ADD_MARK, 1, marks + 1);
    bind_date(ADD_MARK, 2);
    bind_number(ADD_MARK, 3, order->amount);
    stepped(ADD_MARK);
    set_balance(sender, sender->balance - order->amount);
    set_balance(receiver, receiver->balance + order->amount);
    stepped(COMMIT);
    sender->balance -= order->amount;
    receiver->balance += order->amount;
    orders++;
    marks++;
}

// Requests

static int is(struct part part, const char *text) {
    return part.length == strlen(text) && !memcmp(part.at, text, part.length);
}

static struct part up_to(const char **at, const char *end, char stop) {
    struct part part = {*at, 0};
    const char *found = memchr(*at, stop, (size_t)(end - *at));
    part.length = (size_t)((found ? found : end) - *at);
    *at = found ? found + 1 : end;
    return part;
}

// Reads the fields of a head, and returns the length of the body.
static size_t read_fields(const char *at, const char *end, struct request *request) {
    size_t length = 0;
    while (at < end) {
        const char *line_end = memmem(at, (size_t)(end - at), "\r\n", 2);
        struct part name = up_to(&at, line_end, ':');
        while (at < line_end && *at == ' ') at++;
        struct part value = {at, (size_t)(line_end - at)};
        if (name.length == 8 && !strncasecmp(name.at, "desk-key", 8)) request->key = value;
        if (name.length == 14 && !strncasecmp(name.at, "content-length", 14)) length = strtoul(value.at, 0, 10);
        at = line_end + 2;
    }
    return length;
}

// Reads a request, and returns whether it came whole.
static int read_request(int link, char *room, struct request *request) {
    size_t have = 0, wanted = ROOM;
    while (have < wanted) {
        ssize_t more = recv(link, room + have, ROOM - have, 0);
        if (more <= 0) return 0;
        have += (size_t)more;
        const char *end = request->body.at ? 0 : memmem(room, have, "\r\n\r\n", 4);
        if (!end) continue;
        const char *at = room, *line_end = memmem(room, have, "\r\n", 2);
        request->method = up_to(&at, line_end, ' ');
        request->target = up_to(&at, line_end, ' ');
        request->body.at = end + 4;
        request->body.length = read_fields(line_end + 2, end + 2, request);
        wanted = (size_t)(request->body.at - room) + request->body.length;
        if (wanted > ROOM) return 0;
    }
    return 1;
}

static struct account *bearer_of(struct part key) {
    uint8_t digest[DIGEST];
    if (key.length != KEY_LENGTH) return 0;
    digest_of(key.at, digest);
    for (int i = 0; i < account_count; i++)
        if (!memcmp(accounts[i].key, digest, DIGEST)) return &accounts[i];
    return 0;
}

static struct account *account_of(struct part code) {
    for (int i = 0; i < account_count; i++)
        if (is(code, accounts[i].code)) return &accounts[i];
    return 0;
}

static const char *past_spaces(const char *at, const char *end) {
    while (at < end && strchr(" \t\r\n", *at)) at++;
    return at;
}

// Reads an object of JSON with the members of an order, and texts without escapes.
static int read_order(struct part body, struct order *order) {
    const char *at = body.at, *end = body.at + body.length;
    int members = 0;
    for (char next = '{'; next != '}'; members++) {
        at = past_spaces(at, end);
        if (at == end || *at++ != (members ? ',' : '{')) return 0;
        at = past_spaces(at, end);
        if (at == end || *at++ != '"') return 0;
        struct part name = up_to(&at, end, '"');
        at = past_spaces(at, end);
        if (at == end || *at++ != ':') return 0;
        at = past_spaces(at, end);
        if (is(name, "amount")) {
            for (order->amount = 0; at < end && *at >= '0' && *at <= '9'; at++)
                order->amount = 10 * order->amount + (*at - '0');
        } else {
            struct part *text = is(name, "reference") ? &order->reference : is(name, "to") ? &order->to : 0;
            if (!text || at == end || *at++ != '"') return 0;
            *text = up_to(&at, end, '"');
            if (memchr(text->at, '\\', text->length)) return 0;
        }
        at = past_spaces(at, end);
        next = at < end ? *at : '}';
    }
    return members == 3 && at < end && past_spaces(at + 1, end) == end;
}

// Replies

static void send_reply(int link, const char *status, const char *body) {
    char text[1024];
    int length = snprintf(text, sizeof text,
                          "HTTP/1.1 %s\r\nContent-Type: application/json\r\nContent-Length: %zu\r\n"
                          "Connection: close\r\n\r\n%s",
                          status, strlen(body), body);
    if (send(link, text, (size_t)length, MSG_NOSIGNAL) != length) fputs("plain_server: a reply was lost\n", stderr);
}

// Keeps an order that settles at once, and returns whether it is one.
static int takes_order(struct account *sender, struct part body) {
    struct order order = {0};
    if (!is_open || !read_order(body, &order)) return 0;
    struct account *receiver = account_of(order.to);
    if (!receiver || receiver == sender) return 0;
    if (order.reference.length < 1 || order.reference.length > 16 || is_known(sender, &order)) return 0;
    if (order.amount < 1 || order.amount > sender->balance + sender->credit) return 0;
    keep(sender, receiver, &order);
    return 1;
}

static void reply(int link, const struct request *request) {
    char body[512];
    struct account *caller = bearer_of(request->key);
    if (caller && is(request->method, "POST") && is(request->target, "/orders") && takes_order(caller, request->body)) {
        snprintf(body, sizeof body, "{\"answer\":\"settled\",\"mark\":%lld,\"number\":%lld}", marks, orders);
    } else if (caller && is(request->method, "GET") && is(request->target, "/account")) {
        snprintf(body, sizeof body,
                 "{\"balance\":%lld,\"code\":\"%s\",\"credit\":%lld,\"date\":\"%s\",\"name\":\"%s\",\"phase\":\"%s\","
                 "\"queued\":0,\"queued_value\":0}",
                 caller->balance, caller->code, caller->credit, date, caller->name, is_open ? "OPEN" : "CLOSED");
    } else {
        send_reply(link, "400 Bad Request", "{}");
        return;
    }
    send_reply(link, "200 OK", body);
}

static int listening(void) {
    struct sockaddr_in address = {.sin_family = AF_INET, .sin_addr.s_addr = htonl(INADDR_LOOPBACK)};
    socklen_t length = sizeof address;
    int port = socket(AF_INET, SOCK_STREAM | SOCK_CLOEXEC, 0);
    if (bind(port, (struct sockaddr *)&address, length) || listen(port, 128)) fail("no port");
    if (getsockname(port, (struct sockaddr *)&address, &length)) fail("no port");
    printf("listening %d\n", ntohs(address.sin_port));
    fflush(stdout);
    return port;
}

int main(int count, char **words) {
    static char room[ROOM];
    struct timeval patience = {.tv_sec = SECONDS};
    if (count != 3) return 2;
    load(words[1]);
    int port = listening();
    for (long left = atol(words[2]); left > 0; left--) {
        struct request request = {0};
        int link = accept4(port, 0, 0, SOCK_CLOEXEC);
        if (link < 0) continue;
        setsockopt(link, SOL_SOCKET, SO_RCVTIMEO, &patience, sizeof patience);
        if (read_request(link, room, &request)) reply(link, &request);
        close(link);
    }
    for (int i = 0; i < STATEMENTS; i++) sqlite3_finalize(statements[i]);
    return sqlite3_close(book) != SQLITE_OK;
}
