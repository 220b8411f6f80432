/* A load in which one allocation of SQLite and of the extension fails, another one in each round: the database has the transactions that
 * returned well, perhaps the one that did not, and goes on.
 *
 *     memory LIBRARY FOLDER STEP      every STEP-th allocation */
#include <sqlite3.h>
#include <stdio.h>
#include <stdlib.h>

enum { TRANSACTIONS = 4 };

static sqlite3_mem_methods real;
static long until_failure; /* allocations; nothing fails at 0 */

static int fails(void) { return until_failure > 0 && --until_failure == 0; }

static void *failing_malloc(int size) { return fails() ? 0 : real.xMalloc(size); }

static void *failing_realloc(void *old, int size) { return fails() ? 0 : real.xRealloc(old, size); }

static void stop(const char *what, long round, sqlite3 *connection) {
    fprintf(stderr, "%s, round %ld: %s\n", what, round, connection ? sqlite3_errmsg(connection) : "");
    exit(1);
}

static sqlite3 *connect(const char *uri) {
    sqlite3 *connection = 0;
    if (sqlite3_open_v2(uri, &connection, SQLITE_OPEN_URI | SQLITE_OPEN_READWRITE | SQLITE_OPEN_CREATE, 0) == SQLITE_OK) return connection;
    sqlite3_close(connection);
    return 0;
}

/* Does transactions, each of which adds a thousand rows on new and on changed pages, and returns how many returned well. */
static int work(const char *uri) {
    static const char text[] = "pragma cache_size = 4; begin; savepoint s; update t set b = b + 1 where a % 7 = 0; rollback to s;"
                               "with recursive c(n) as (select 1 union all select n + 1 from c where n < 1000)"
                               "insert into t(b) select n from c; update t set b = b + 1 where a % 100 = 0; commit;";
    int done = 0;
    sqlite3 *connection = connect(uri);
    while (connection && done < TRANSACTIONS && sqlite3_exec(connection, text, 0, 0, 0) == SQLITE_OK) done++;
    if (connection && done < TRANSACTIONS) sqlite3_exec(connection, "rollback", 0, 0, 0);
    sqlite3_close(connection);
    return done;
}

static int number(sqlite3 *connection, const char *sql) {
    sqlite3_stmt *statement = 0;
    int value = -1;
    if (sqlite3_prepare_v2(connection, sql, -1, &statement, 0) == SQLITE_OK && sqlite3_step(statement) == SQLITE_ROW) {
        value = sqlite3_column_int(statement, 0);
    }
    sqlite3_finalize(statement);
    return value;
}

/* Whether the load ended before an allocation could fail. */
static int round_of(const char *folder, long place) {
    char uri[4096];
    snprintf(uri, sizeof uri, "file:%s/database%ld?vfs=yieldcleat", folder, place);
    sqlite3 *connection = connect(uri);
    if (!connection || sqlite3_exec(connection, "create table t(a integer primary key, b)", 0, 0, 0)) stop("no table", place, connection);
    sqlite3_close(connection);
    until_failure = place;
    int done = work(uri), is_last = until_failure > 0;
    until_failure = 0;
    connection = connect(uri);
    if (!connection) stop("it does not open", place, 0);
    int rows = number(connection, "select count(*) from t");
    if (rows != 1000 * done && rows != 1000 * (done + 1)) stop("other rows", place, connection);
    if (number(connection, "select count(*) from pragma_integrity_check where integrity_check <> 'ok'")) stop("not whole", place, connection);
    sqlite3_close(connection);
    if (work(uri) != TRANSACTIONS) stop("it does not go on", place, 0);
    return is_last;
}

int main(int count, char **words) {
    sqlite3_mem_methods failing;
    sqlite3 *connection = 0;
    if (count != 4) return 2;
    sqlite3_config(SQLITE_CONFIG_GETMALLOC, &real);
    failing = real;
    failing.xMalloc = failing_malloc;
    failing.xRealloc = failing_realloc;
    sqlite3_config(SQLITE_CONFIG_MALLOC, &failing);
    sqlite3_open(":memory:", &connection);
    sqlite3_enable_load_extension(connection, 1);
    if (sqlite3_load_extension(connection, words[1], 0, 0) != SQLITE_OK) stop("no extension", 0, connection);
    sqlite3_close(connection);
    long place = 1, step = strtol(words[3], 0, 10);
    while (!round_of(words[2], place)) place += step;
    printf("all as expected, up to allocation %ld\n", place);
    return 0;
}
