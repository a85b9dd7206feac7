/* commits JOURNAL DATABASE
 * commits version
 *
 * Does with SQLite what `heat-meter run` does with its memory: for each `pulse`
 * line of standard input a record of 1,280 bytes is stored, by an UPDATE of the
 * one row in a transaction of its own with synchronous=FULL, and then answered
 * by a line, which goes out by one write. JOURNAL is delete or wal. The database
 * is made where there is none. No samples are in force, so no energy is counted.
 * The second form prints the version of SQLite. */

#include <sqlite3.h>
#include <stdint.h>
#include <stdio.h>
#include <stdlib.h>
#include <string.h>
#include <unistd.h>

enum { RECORD_BYTES = 1280, LITRES_PER_PULSE = 10 };

struct record {
    uint64_t events, pulses;
    unsigned char rest[RECORD_BYTES - 2 * sizeof(uint64_t)];
};

static sqlite3 *database;

static void fail(const char *what)
{
    fprintf(stderr, "commits: %s: %s\n", what, database ? sqlite3_errmsg(database) : "failed");
    exit(1);
}

static sqlite3_stmt *prepared(const char *text)
{
    sqlite3_stmt *statement;

    if (sqlite3_prepare_v2(database, text, -1, &statement, NULL) != SQLITE_OK)
        fail(text);
    return statement;
}

static void step(sqlite3_stmt *statement, const char *what)
{
    if (sqlite3_step(statement) != SQLITE_DONE || sqlite3_reset(statement) != SQLITE_OK)
        fail(what);
}

/* Takes a pragma whose answer has to be this one. */
static void expect(const char *pragma, const char *wanted)
{
    sqlite3_stmt *statement = prepared(pragma);

    if (sqlite3_step(statement) != SQLITE_ROW || strcmp((const char *)sqlite3_column_text(statement, 0), wanted) != 0)
        fail(pragma);
    sqlite3_finalize(statement);
}

static void open_database(const char *path, const char *journal)
{
    char pragma[64];

    if (sqlite3_open(path, &database) != SQLITE_OK)
        fail(path);
    snprintf(pragma, sizeof pragma, "PRAGMA journal_mode=%.8s", journal);
    expect(pragma, journal);
    if (sqlite3_exec(database, "PRAGMA synchronous=FULL", NULL, NULL, NULL) != SQLITE_OK)
        fail("PRAGMA synchronous=FULL");
    expect("PRAGMA synchronous", "2");
}

/* Reads the row, and first makes it where there is none. */
static void recover(struct record *record)
{
    if (sqlite3_exec(database,
                     "CREATE TABLE IF NOT EXISTS register (id INTEGER PRIMARY KEY, record BLOB NOT NULL);"
                     "INSERT INTO register SELECT 1, zeroblob(1280) WHERE NOT EXISTS (SELECT * FROM register)",
                     NULL, NULL, NULL) != SQLITE_OK)
        fail("the making of the row");

    sqlite3_stmt *select = prepared("SELECT record FROM register WHERE id = 1");
    if (sqlite3_step(select) != SQLITE_ROW || sqlite3_column_bytes(select, 0) != RECORD_BYTES)
        fail("the row");
    memcpy(record, sqlite3_column_blob(select, 0), RECORD_BYTES);
    sqlite3_finalize(select);
}

static void acknowledge(const struct record *record)
{
    char answer[64];
    int length = snprintf(answer, sizeof answer, "ok %llu %llu 0 0\n", (unsigned long long)record->events,
                          (unsigned long long)record->pulses * LITRES_PER_PULSE);

    if (write(STDOUT_FILENO, answer, (size_t)length) != length)
        fail("output");
}

int main(int count, char **words)
{
    static struct record record;
    char line[128];

    if (count == 2 && strcmp(words[1], "version") == 0) {
        puts(sqlite3_libversion());
        return 0;
    }
    if (count != 3) {
        fprintf(stderr, "commits JOURNAL DATABASE, or commits version\n");
        return 2;
    }
    open_database(words[2], words[1]);
    recover(&record);

    sqlite3_stmt *update = prepared("UPDATE register SET record = ? WHERE id = 1");
    while (fgets(line, sizeof line, stdin)) {
        if (strncmp(line, "pulse ", 6) != 0)
            fail("a line that is no pulse");
        record.events++;
        record.pulses += strtoull(line + 6, NULL, 10);
        if (sqlite3_bind_blob(update, 1, &record, RECORD_BYTES, SQLITE_STATIC) != SQLITE_OK)
            fail("the binding of the record");
        step(update, "UPDATE");
        acknowledge(&record);
    }
    sqlite3_finalize(update);
    if (sqlite3_close(database) != SQLITE_OK)
        fail("closing");
    return 0;
}
