/* What both of sqlite3's sides need: statements that stop the program where they fail, and the time in nanoseconds. */

#include <sqlite3.h>
#include <stdint.h>
#include <stdio.h>
#include <stdlib.h>
#include <time.h>

static void stop(sqlite3 *base) {
    fprintf(stderr, "%s\n", sqlite3_errmsg(base));
    exit(1);
}

static void run(sqlite3 *base, const char *text) {
    if (sqlite3_exec(base, text, 0, 0, 0) != SQLITE_OK) stop(base);
}

static sqlite3_stmt *prepared(sqlite3 *base, const char *text) {
    sqlite3_stmt *statement;
    if (sqlite3_prepare_v2(base, text, -1, &statement, 0) != SQLITE_OK) stop(base);
    return statement;
}

static uint64_t now(void) {
    struct timespec time;
    clock_gettime(CLOCK_MONOTONIC, &time);
    return (uint64_t)time.tv_sec * 1000000000u + (uint64_t)time.tv_nsec;
}
