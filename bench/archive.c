// Puts records into an archive of format 3 by sqlite3's own INSERT, for archive.py: one prepared statement, one transaction.
//
//     archive FILE FIRST COUNT TIMES
//
// FILE is an archive; its records of log 1, epoch 0, begin at FIRST. Prints how many microseconds BEGIN to COMMIT took of each of
// TIMES batches of COUNT records, 4096 at most, whose texts are made before. The file is in WAL mode with synchronous FULL, as
// the kit's sqlite has it.
#include <sqlite3.h>
#include <stdio.h>
#include <stdlib.h>
#include <string.h>
#include <time.h>

static sqlite3 *base;

static void done(int status, int wanted) {
    if (status == wanted) return;
    fprintf(stderr, "%s\n", sqlite3_errmsg(base));
    exit(1);
}

static void run(const char *text) { done(sqlite3_exec(base, text, NULL, NULL, NULL), SQLITE_OK); }

static long long now(void) {
    struct timespec at;
    clock_gettime(CLOCK_MONOTONIC, &at);
    return at.tv_sec * 1000000LL + at.tv_nsec / 1000;
}

#define MOST 4096
static char stamps[MOST][32];

static void batch(sqlite3_stmt *put, long long first, long long many) {
    for (long long at = 0; at < many; at++) {
        long long n = first + at;
        snprintf(stamps[at], sizeof stamps[at], "2026-11-29T%02lld:%02lld:%02lld.00", n / 3600 % 24, n / 60 % 60, n % 60);
    }
    long long began = now();
    run("BEGIN");
    for (long long at = 0; at < many; at++) {
        sqlite3_bind_int64(put, 1, (1LL << 47) + first + at);
        sqlite3_bind_text(put, 2, stamps[at], (int)strlen(stamps[at]), SQLITE_STATIC);
        sqlite3_bind_double(put, 3, (double)(first + at));
        sqlite3_bind_text(put, 4, "real(41a00000)", 14, SQLITE_STATIC);
        sqlite3_bind_text(put, 5, "0000", 4, SQLITE_STATIC);
        done(sqlite3_step(put), SQLITE_DONE);
        sqlite3_reset(put);
    }
    run("COMMIT");
    printf("%lld ", now() - began);
}

int main(int count, char **words) {
    if (count != 5) return 2;
    long long first = atoll(words[2]), many = atoll(words[3]), times = atoll(words[4]);
    if (many < 0 || many > MOST) return 2;
    sqlite3_stmt *put;
    done(sqlite3_open(words[1], &base), SQLITE_OK);
    run("PRAGMA journal_mode = WAL");
    run("PRAGMA synchronous = FULL");
    done(sqlite3_prepare_v2(base, "INSERT INTO items (id, stamp, value, datum, flags) VALUES (?1, ?2, ?3, ?4, ?5)", -1, &put,
                            NULL), SQLITE_OK);
    for (long long turn = 0; turn < times; turn++) batch(put, first + turn * many, many);
    printf("\n");
    sqlite3_finalize(put);
    done(sqlite3_close(base), SQLITE_OK);
    return 0;
}
