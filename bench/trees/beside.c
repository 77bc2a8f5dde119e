/* Times sqlite3 in memory, in one transaction, on the records of records.rt.in: insertions in order and shuffled, searches
   for one record, and searches for what overlaps a span, by the key and by an rtree. A record is the key of a table without
   rowids. Prints nanoseconds, as main.rt.in does. */

#include "../beside.h"

#include <inttypes.h>
#include <string.h>

enum { WIDTH = 40, ROUTES = 100, WHOLE = 3, INTERVALS = 1000 };

static const uint64_t STRIDE = 15485863;

static uint64_t count;

static uint64_t on_route(void) {
    uint64_t records = count / ROUTES;
    return records ? records : 1;
}

static void put(unsigned char *bytes, uint64_t number, int width) {
    for (int k = 0; k < width; k++) bytes[k] = (unsigned char)(number >> (8 * (width - 1 - k)));
}

static void put_record(uint64_t number, unsigned char *record, uint32_t *route, uint32_t *from, uint32_t *to) {
    uint64_t place = number % on_route();
    *route = (uint32_t)(number / on_route());
    *from = place < WHOLE ? 0 : (uint32_t)(place * 1000);
    *to = place < WHOLE ? (uint32_t)(on_route() * 1000) : *from + 1500;
    memset(record, 0, WIDTH);
    put(record, *route, 4);
    put(record + 4, *from, 4);
    put(record + 16, number, 4);
    put(record + 20, 1, 8);
    put(record + 28, *to, 4);
    put(record + 32, UINT64_MAX, 8);
}

static void put_start(unsigned char *bytes, uint32_t route, uint32_t from) {
    put(bytes, route, 4);
    put(bytes + 4, from, 4);
}

static uint64_t rows(sqlite3 *base, sqlite3_stmt *statement) {
    uint64_t found = 0;
    int answer;
    while ((answer = sqlite3_step(statement)) == SQLITE_ROW) {
        if (sqlite3_column_blob(statement, 0)) found++;
    }
    if (answer != SQLITE_DONE) stop(base);
    sqlite3_reset(statement);
    return found;
}

static sqlite3 *opened(void) {
    sqlite3 *base;
    if (sqlite3_open(":memory:", &base) != SQLITE_OK) stop(base);
    run(base, "pragma page_size = 4096");
    run(base, "create table records (record blob primary key) without rowid");
    return base;
}

static uint64_t insert_all(sqlite3 *base, uint64_t stride) {
    unsigned char record[WIDTH];
    uint32_t route, from, to;
    uint64_t start = now();
    run(base, "begin");
    sqlite3_stmt *insert = prepared(base, "insert into records values (?)");
    for (uint64_t turn = 0; turn < count; turn++) {
        put_record(turn * stride % count, record, &route, &from, &to);
        sqlite3_bind_blob(insert, 1, record, WIDTH, SQLITE_STATIC);
        if (sqlite3_step(insert) != SQLITE_DONE) stop(base);
        sqlite3_reset(insert);
    }
    sqlite3_finalize(insert);
    run(base, "commit");
    return now() - start;
}

static uint64_t search_all(sqlite3 *base, uint64_t *found) {
    unsigned char record[WIDTH];
    uint32_t route, from, to;
    uint64_t start = now();
    run(base, "begin");
    sqlite3_stmt *search = prepared(base, "select record from records where record = ?");
    for (uint64_t turn = 0; turn < count; turn++) {
        put_record(turn * STRIDE % count, record, &route, &from, &to);
        sqlite3_bind_blob(search, 1, record, WIDTH, SQLITE_STATIC);
        *found += rows(base, search);
    }
    sqlite3_finalize(search);
    run(base, "commit");
    return now() - start;
}

static void span(uint64_t turn, uint32_t *route, uint32_t *from, uint32_t *to) {
    *route = (uint32_t)(turn % ROUTES);
    *from = (uint32_t)(turn * STRIDE % on_route() * 1000);
    *to = *from + 2000;
}

static uint64_t search_by_key(sqlite3 *base, uint64_t *hits) {
    unsigned char low[8], high[8], end[4];
    uint32_t route, from, to;
    uint64_t start = now();
    run(base, "begin");
    sqlite3_stmt *search = prepared(
        base, "select record from records where record >= ? and record < ? and substr(record, 29, 4) > ?");
    for (uint64_t turn = 0; turn < INTERVALS; turn++) {
        span(turn, &route, &from, &to);
        put_start(low, route, 0);
        put_start(high, route, to);
        put(end, from, 4);
        sqlite3_bind_blob(search, 1, low, 8, SQLITE_STATIC);
        sqlite3_bind_blob(search, 2, high, 8, SQLITE_STATIC);
        sqlite3_bind_blob(search, 3, end, 4, SQLITE_STATIC);
        *hits += rows(base, search);
    }
    sqlite3_finalize(search);
    run(base, "commit");
    return now() - start;
}

static void fill_rtree(sqlite3 *base) {
    unsigned char record[WIDTH];
    uint32_t route, from, to;
    run(base, "begin");
    run(base, "create virtual table spans using rtree_i32(id, first_route, last_route, start, stop, +record blob)");
    sqlite3_stmt *insert = prepared(base, "insert into spans values (?, ?, ?, ?, ?, ?)");
    for (uint64_t turn = 0; turn < count; turn++) {
        uint64_t number = turn * STRIDE % count;
        put_record(number, record, &route, &from, &to);
        sqlite3_bind_int64(insert, 1, (sqlite3_int64)number);
        sqlite3_bind_int64(insert, 2, route);
        sqlite3_bind_int64(insert, 3, route);
        sqlite3_bind_int64(insert, 4, from);
        sqlite3_bind_int64(insert, 5, to);
        sqlite3_bind_blob(insert, 6, record, WIDTH, SQLITE_STATIC);
        if (sqlite3_step(insert) != SQLITE_DONE) stop(base);
        sqlite3_reset(insert);
    }
    sqlite3_finalize(insert);
    run(base, "commit");
}

static uint64_t search_by_rtree(sqlite3 *base, uint64_t *hits) {
    uint32_t route, from, to;
    uint64_t start = now();
    run(base, "begin");
    sqlite3_stmt *search = prepared(
        base, "select record from spans where first_route >= ?1 and last_route <= ?1 and start < ?3 and stop > ?2");
    for (uint64_t turn = 0; turn < INTERVALS; turn++) {
        span(turn, &route, &from, &to);
        sqlite3_bind_int64(search, 1, route);
        sqlite3_bind_int64(search, 2, from);
        sqlite3_bind_int64(search, 3, to);
        *hits += rows(base, search);
    }
    sqlite3_finalize(search);
    run(base, "commit");
    return now() - start;
}

int main(int arguments, char **words) {
    count = arguments > 1 ? strtoull(words[1], 0, 10) : 1000;
    uint64_t found = 0, by_key_hits = 0, by_rtree_hits = 0;
    sqlite3 *ordered = opened(), *shuffled = opened(), *indexed = opened();
    uint64_t ordered_time = insert_all(ordered, 1);
    uint64_t shuffled_time = insert_all(shuffled, STRIDE);
    uint64_t search_time = search_all(shuffled, &found);
    uint64_t by_key = search_by_key(shuffled, &by_key_hits);
    fill_rtree(indexed);
    uint64_t by_rtree = search_by_rtree(indexed, &by_rtree_hits);
    if (by_key_hits != by_rtree_hits) return 1;
    printf("count=%" PRIu64 " ordered=%" PRIu64 " shuffled=%" PRIu64 " searches=%" PRIu64 " intervals=%" PRIu64
           " found=%" PRIu64 " hits=%" PRIu64 " by_key=%" PRIu64 " by_rtree=%" PRIu64 "\n",
           count, ordered_time, shuffled_time, search_time, by_key < by_rtree ? by_key : by_rtree, found, by_key_hits, by_key,
           by_rtree);
    return 0;
}
