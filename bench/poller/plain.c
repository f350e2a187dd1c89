// A plain client, for poller.py: it polls trend logs into an SQLite file as a careful program without proofs would.
//
//     plain FILE AT_ONCE < LOGS
//
// LOGS has a line a log: ADDRESS:PORT INSTANCE. Of each log the records behind its newest row are fetched; one request a log is in
// flight, AT_ONCE in all; each is sent up to four times, three seconds apart. What came of 64 replies or in 100 ms is committed at
// once. The file is in WAL mode with synchronous FULL, and its rows are those of an archive of format 3.
#include <arpa/inet.h>
#include <errno.h>
#include <poll.h>
#include <sqlite3.h>
#include <stdint.h>
#include <stdio.h>
#include <stdlib.h>
#include <string.h>
#include <sys/socket.h>
#include <time.h>

enum { TIMEOUT = 3000, SENT = 4, BATCH = 64, HOLD = 100, LOGS = 1 << 20 };

struct log { struct sockaddr_in peer; uint32_t instance, newest; uint8_t invoke, sent; long long due; int is_open, next; };

static struct log *logs;
static int count, first[1 << 16], udp, held;
static sqlite3 *base;
static sqlite3_stmt *put;
static long long since;
static long rows, lost;

static long long now(void) {
    struct timespec at;
    clock_gettime(CLOCK_MONOTONIC, &at);
    return at.tv_sec * 1000LL + at.tv_nsec / 1000000;
}

static void done(int status, int wanted) {
    if (status == wanted) return;
    fprintf(stderr, "%s\n", sqlite3_errmsg(base));
    exit(1);
}

static void run(const char *text) { done(sqlite3_exec(base, text, NULL, NULL, NULL), SQLITE_OK); }

static unsigned slot(const struct sockaddr_in *at) {
    uint32_t address = ntohl(at->sin_addr.s_addr);
    return (address * 2654435761u ^ at->sin_port * 40503u) >> 16;
}

static void commit(void) {
    if (sqlite3_get_autocommit(base)) return;
    run("COMMIT");
    held = 0;
}

static void ask(struct log *log) {
    uint8_t request[] = {0x81, 0x0a, 0, 0, 1, 4, 0x00, 0x05, log->invoke, 26, 0x0c, 0x05, 0, 0, 0, 0x19, 131,
                         0x6e, 0x24, 0, 0, 0, 0, 0x31, 100, 0x6f};
    uint8_t oldest[] = {0x7e, 0xa4, 0, 1, 1, 1, 0xb4, 0, 0, 0, 0, 0x31, 100, 0x7f};
    int size = sizeof request;
    uint32_t object = 20u << 22 | log->instance;
    for (int at = 0; at < 4; at++) request[11 + at] = object >> (24 - 8 * at), request[19 + at] = log->newest >> (24 - 8 * at);
    uint8_t all[64];
    memcpy(all, request, size);
    if (!log->newest) memcpy(all + 17, oldest, sizeof oldest), size = 17 + sizeof oldest;
    all[3] = size;
    sendto(udp, all, size, 0, (struct sockaddr *)&log->peer, sizeof log->peer);
    log->due = now() + TIMEOUT;
    log->sent++;
    log->is_open = 1;
}

static void row(uint64_t id, const uint8_t *at) {
    char stamp[32], datum[20];
    union { float value; uint32_t bits; } real = {.bits = (uint32_t)at[14] << 24 | at[15] << 16 | at[16] << 8 | at[17]};
    int size = snprintf(stamp, sizeof stamp, "%04d-%02d-%02dT%02d:%02d:%02d.%02d", 1900 + at[2], at[3], at[4], at[7], at[8],
                        at[9], at[10]);
    int width = snprintf(datum, sizeof datum, "real(%08x)", real.bits);
    if (sqlite3_get_autocommit(base)) run("BEGIN"), since = now();
    sqlite3_bind_int64(put, 1, id);
    sqlite3_bind_text(put, 2, stamp, size, SQLITE_STATIC);
    sqlite3_bind_double(put, 3, real.value);
    sqlite3_bind_text(put, 4, datum, width, SQLITE_STATIC);
    sqlite3_bind_text(put, 5, "0000", 4, SQLITE_STATIC);
    done(sqlite3_step(put), SQLITE_DONE);
    sqlite3_reset(put);
    rows++;
}

// Whether the log goes on behind this reply. Its records are REALs with flags, as the plant's are; no other is taken.
static int took(struct log *log, const uint8_t *apdu, int size) {
    const uint8_t *at = apdu + 3, *end = apdu + size;
    if (size < 20 || apdu[0] != 0x30 || apdu[2] != 26) return 0;
    at += 5 + 1 + (at[5] & 7);
    int flags = at[2], width = at[3] & 7;
    at += 4;
    uint32_t many = 0, number = 0;
    while (width--) many = many * 256 + *at++;
    at++;
    const uint8_t *items = at;
    const uint8_t *tail = items + 22 * many + 1;
    if (!many || tail >= end) return 0;
    for (width = *tail++ & 7; width--;) number = number * 256 + *tail++;
    int is_news = 0;
    for (uint32_t n = 0; n < many; n++) {
        if (number + n <= log->newest) continue;
        row((uint64_t)(log - logs + 1) << 47 | (number + n), items + 22 * n);
        is_news = 1;
    }
    log->newest = number + many - 1;
    held += is_news;
    return is_news && !(flags & 0x40);
}

static struct log *log_of(const struct sockaddr_in *from, uint8_t invoke) {
    for (int at = first[slot(from)]; at; at = logs[at - 1].next) {
        struct log *log = &logs[at - 1];
        if (log->is_open && log->invoke == invoke && log->peer.sin_port == from->sin_port
            && log->peer.sin_addr.s_addr == from->sin_addr.s_addr) return log;
    }
    return NULL;
}

static void read_logs(void) {
    char host[64];
    unsigned port, instance;
    sqlite3_stmt *newest;
    done(sqlite3_prepare_v2(base, "SELECT max(id) FROM items WHERE id BETWEEN ?1 AND ?2", -1, &newest, NULL), SQLITE_OK);
    while (scanf("%63[0-9.]:%u %u\n", host, &port, &instance) == 3) {
        struct log *log = &logs[count++];
        log->peer.sin_family = AF_INET, log->peer.sin_port = htons(port), log->instance = instance;
        inet_pton(AF_INET, host, &log->peer.sin_addr);
        log->invoke = count;
        log->next = first[slot(&log->peer)];
        first[slot(&log->peer)] = count;
        sqlite3_bind_int64(newest, 1, (int64_t)count << 47);
        sqlite3_bind_int64(newest, 2, ((int64_t)count << 47) + UINT32_MAX);
        done(sqlite3_step(newest), SQLITE_ROW);
        log->newest = sqlite3_column_int64(newest, 0);
        sqlite3_reset(newest);
    }
    sqlite3_finalize(newest);
}

// Datagrams that are here, until none is. How many logs are done behind them.
static int hear(int *open) {
    int ended = 0;
    for (;;) {
        uint8_t reply[1500];
        struct sockaddr_in from;
        socklen_t width = sizeof from;
        int size = recvfrom(udp, reply, sizeof reply, MSG_DONTWAIT, (struct sockaddr *)&from, &width);
        if (size < 0) return ended;
        struct log *log = size < 9 ? NULL : log_of(&from, reply[7]);
        if (!log) continue;
        log->is_open = log->sent = 0;
        if (took(log, reply + 6, size - 6)) ask(log);
        else ended++, --*open;
        if (held >= BATCH) commit();
    }
}

// Requests that weren't answered in time are sent again, or given up.
static void again(int *open) {
    for (int at = 0; at < count; at++) {
        if (!logs[at].is_open || logs[at].due > now()) continue;
        if (logs[at].sent < SENT) ask(&logs[at]);
        else logs[at].is_open = 0, lost++, --*open;
    }
}

int main(int many, char **words) {
    if (many != 3) return 2;
    int at_once = atoi(words[2]), open = 0, begun = 0, size = 1 << 22;
    logs = calloc(LOGS, sizeof *logs);
    done(sqlite3_open(words[1], &base), SQLITE_OK);
    run("PRAGMA journal_mode = WAL");
    run("PRAGMA synchronous = FULL");
    run("CREATE TABLE IF NOT EXISTS items (id INTEGER PRIMARY KEY, last INTEGER, stamp TEXT, value REAL, datum TEXT, flags TEXT)");
    done(sqlite3_prepare_v2(base, "INSERT INTO items VALUES (?1, NULL, ?2, ?3, ?4, ?5)", -1, &put, NULL), SQLITE_OK);
    read_logs();
    udp = socket(AF_INET, SOCK_DGRAM, 0);
    setsockopt(udp, SOL_SOCKET, SO_RCVBUF, &size, sizeof size);
    long long looked = now();
    while (begun < count || open) {
        for (; begun < count && open < at_once; begun++, open++) ask(&logs[begun]);
        poll(&(struct pollfd){.fd = udp, .events = POLLIN}, 1, 50);
        hear(&open);
        if (held && now() - since >= HOLD) commit();
        if (now() - looked > 100) again(&open), looked = now();
    }
    commit();
    printf("%ld rows, %ld logs lost\n", rows, lost);
    sqlite3_finalize(put);
    done(sqlite3_close(base), SQLITE_OK);
    return 0;
}
