/* Times sqlite3 through C on the rows of a text file: prepared insertions in one transaction, and then, with a third word, the
   removal of each row in another. A line of the text is a route's number, two measures in thousandths, a text of at most eight bytes
   and a number, with blanks between them; all lines are read before anything is timed. Prints nanoseconds. */

#include "../beside.h"

#include <inttypes.h>
#include <string.h>

struct row {
    int route, low, high, lanes;
    char surface[9];
};

static struct row *rows;
static size_t count;

static void read_rows(const char *path) {
    FILE *file = fopen(path, "r");
    size_t room = 1024;
    rows = malloc(room * sizeof *rows);
    if (!file || !rows) exit(1);
    for (struct row row; fscanf(file, "%d %d %d %8s %d", &row.route, &row.low, &row.high, row.surface, &row.lanes) == 5; count++) {
        if (count == room) rows = realloc(rows, (room *= 2) * sizeof *rows);
        if (!rows) exit(1);
        rows[count] = row;
    }
    fclose(file);
}

/* One statement for each row in one transaction, and the nanoseconds from BEGIN to the end of COMMIT. */
static uint64_t each_row(sqlite3 *base, const char *text) {
    sqlite3_stmt *statement = prepared(base, text);
    uint64_t start = now();
    run(base, "BEGIN");
    for (size_t k = 0; k < count; k++) {
        sqlite3_bind_int(statement, 1, rows[k].route);
        sqlite3_bind_int(statement, 2, rows[k].low);
        sqlite3_bind_int(statement, 3, rows[k].high);
        sqlite3_bind_text(statement, 4, rows[k].surface, -1, SQLITE_STATIC);
        sqlite3_bind_int(statement, 5, rows[k].lanes);
        if (sqlite3_step(statement) != SQLITE_DONE) stop(base);
        sqlite3_reset(statement);
    }
    run(base, "COMMIT");
    uint64_t spent = now() - start;
    sqlite3_finalize(statement);
    return spent;
}

int main(int argc, char **words) {
    sqlite3 *base;
    if (argc < 5) return 2;
    read_rows(words[1]);
    if (sqlite3_open(words[2], &base) != SQLITE_OK) stop(base);
    run(base, "PRAGMA synchronous=FULL");
    run(base, "CREATE TABLE pave (route INT, lo INT, hi INT, surf TEXT, lanes INT, PRIMARY KEY (route, lo, hi, surf, lanes)) WITHOUT ROWID");
    if (!strcmp(words[3], "index")) run(base, "CREATE INDEX ps ON pave (surf)");
    uint64_t inserted = each_row(base, "INSERT OR IGNORE INTO pave VALUES (?1, ?2, ?3, ?4, ?5)");
    uint64_t removed = 0;
    if (!strcmp(words[4], "remove")) removed = each_row(base, "DELETE FROM pave WHERE route=?1 AND lo=?2 AND hi=?3 AND surf=?4 AND lanes=?5");
    printf("%" PRIu64 " %" PRIu64 "\n", inserted, removed);
    return sqlite3_close(base) != SQLITE_OK;
}
