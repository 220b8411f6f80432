/* The calls of a library that is built with SQLITE_ENABLE_BATCH_ATOMIC_WRITE, which Debian's is not, made on the file itself; the greatest
 * page; and what a program may ask.
 *
 *     batch LIBRARY URI */
#include <sqlite3.h>
#include <stdio.h>
#include <stdlib.h>
#include <string.h>

#include "../include/yieldcleat_sqlite.h"

enum { PAGE = 4096 };

static sqlite3_file *file;

static void expect(int is_so, const char *what) {
    if (is_so) return;
    fprintf(stderr, "not so: %s\n", what);
    exit(1);
}

static sqlite3 *open_database(const char *library, const char *uri) {
    sqlite3 *first = 0, *connection = 0;
    expect(sqlite3_open(":memory:", &first) == SQLITE_OK, "a database in memory opens");
    sqlite3_enable_load_extension(first, 1);
    expect(sqlite3_load_extension(first, library, 0, 0) == SQLITE_OK, "the extension loads");
    sqlite3_close(first);
    expect(sqlite3_open_v2(uri, &connection, SQLITE_OPEN_URI | SQLITE_OPEN_READWRITE | SQLITE_OPEN_CREATE, 0) == SQLITE_OK, "it opens");
    expect(sqlite3_exec(connection, "create table t(a)", 0, 0, 0) == SQLITE_OK, "a table is made");
    sqlite3_file_control(connection, "main", SQLITE_FCNTL_FILE_POINTER, &file);
    return connection;
}

static int control(int operation) { return file->pMethods->xFileControl(file, operation, 0); }

static int write_page(int page, int byte) {
    unsigned char bytes[PAGE];
    memset(bytes, byte, sizeof bytes);
    return file->pMethods->xWrite(file, bytes, PAGE, (sqlite3_int64)(page - 1) * PAGE);
}

static void put(int page, int byte) { expect(write_page(page, byte) == SQLITE_OK, "a page is written"); }

static int has(int page, int byte) {
    unsigned char bytes[PAGE];
    int code = file->pMethods->xRead(file, bytes, PAGE, (sqlite3_int64)(page - 1) * PAGE);
    return bytes[0] == byte && bytes[PAGE - 9] == byte && (code == SQLITE_OK || code == SQLITE_IOERR_SHORT_READ);
}

static void begin(void) {
    expect(file->pMethods->xLock(file, SQLITE_LOCK_SHARED) == SQLITE_OK, "it is locked for reading");
    expect(file->pMethods->xLock(file, SQLITE_LOCK_RESERVED) == SQLITE_OK, "it is locked for writing");
    expect(control(SQLITE_FCNTL_BEGIN_ATOMIC_WRITE) == SQLITE_OK, "a batch begins");
}

static void commit(void) {
    expect(control(SQLITE_FCNTL_SYNC) == SQLITE_OK && file->pMethods->xSync(file, SQLITE_SYNC_NORMAL) == SQLITE_OK, "it is committed");
    expect(control(SQLITE_FCNTL_COMMIT_PHASETWO) == SQLITE_OK, "the transaction ends");
    file->pMethods->xUnlock(file, SQLITE_LOCK_NONE);
}

/* The point is that of the pragma, and the message has these words. */
static void ask(sqlite3 *connection, const char *words) {
    sqlite3_uint64 point = 0;
    const char *message = 0;
    char **rows = 0;
    expect(sqlite3_get_table(connection, "pragma yieldcleat_point", &rows, 0, 0, 0) == SQLITE_OK, "the pragma has an answer");
    expect(sqlite3_file_control(connection, "main", YIELDCLEAT_FCNTL_POINT, &point) == SQLITE_OK, "the point is known");
    expect(point > 0 && point == strtoull(rows[1], 0, 10), "the point is that of the pragma");
    expect(sqlite3_file_control(connection, "main", YIELDCLEAT_FCNTL_MESSAGE, &message) == SQLITE_OK, "there is a message");
    expect(strstr(message, words) && !*words == !*message, "the message is of the last error");
    sqlite3_free_table(rows);
}

int main(int count, char **words) {
    if (count != 3) return 2;
    sqlite3 *connection = open_database(words[1], words[2]);
    ask(connection, "");
    expect(file->pMethods->xDeviceCharacteristics(file) & SQLITE_IOCAP_BATCH_ATOMIC, "batches are offered");
    begin();
    put(3, 'a');
    put(4, 'a');
    expect(control(SQLITE_FCNTL_COMMIT_ATOMIC_WRITE) == SQLITE_OK, "a batch is kept");
    commit();
    begin();
    put(3, 'b');
    put(5, 'b');
    expect(control(SQLITE_FCNTL_ROLLBACK_ATOMIC_WRITE) == SQLITE_OK, "a batch is dropped");
    expect(has(3, 'a') && has(5, 0), "what it wrote is gone");
    put(4, 'c');
    commit();
    expect(file->pMethods->xLock(file, SQLITE_LOCK_SHARED) == SQLITE_OK, "it is locked again");
    expect(has(3, 'a') && has(4, 'c') && has(5, 0), "what was committed is there");
    begin();
    put(3, 'd');
    put(65535, 'd');
    expect(write_page(65536, 'd') == SQLITE_FULL, "the database is full");
    file->pMethods->xUnlock(file, SQLITE_LOCK_NONE);
    expect(file->pMethods->xLock(file, SQLITE_LOCK_SHARED) == SQLITE_OK && has(3, 'a'), "what was not committed is gone");
    file->pMethods->xUnlock(file, SQLITE_LOCK_NONE);
    ask(connection, "a volume has 65535 pages");
    sqlite3_close(connection);
    puts("all as expected");
    return 0;
}
