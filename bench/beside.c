/* Writes and reads the rows of a desk's file by SQLite's own library: cc -O2 beside.c -lsqlite3

     beside commands FILE N   opens N releases, each in a transaction of its own
     beside freeze FILE N     freezes a release with N duties in one transaction: a frozen row for each ten, a duty and its change each, in
                              the order in which a desk adds them
     beside adopt FILE N      adopts N references of a document, each in a transaction of its own
     beside withdraw FILE N   withdraws the release with its N duties in one transaction: the state of each, and a change
     beside totals FILE N     counts the duties of a release by their states, N times
     beside open FILE 1       opens the file and reads the number of each duty, its release and its state

   by the tables as the desk made them, with its journal, a log, and each commit flushed. Prints the seconds of the rows. */
#include <sqlite3.h>
#include <stdio.h>
#include <stdlib.h>
#include <string.h>
#include <time.h>

static sqlite3 *desk;

static void want(int is_well)
{
    if (!is_well) {
        fprintf(stderr, "sqlite: %s\n", sqlite3_errmsg(desk));
        exit(1);
    }
}

static void run(const char *text)
{
    want(sqlite3_exec(desk, text, NULL, NULL, NULL) == SQLITE_OK);
}

static sqlite3_stmt *prepared(const char *text)
{
    sqlite3_stmt *statement;

    want(sqlite3_prepare_v2(desk, text, -1, &statement, NULL) == SQLITE_OK);
    return statement;
}

static void step(sqlite3_stmt *statement)
{
    want(sqlite3_step(statement) == SQLITE_DONE);
    want(sqlite3_reset(statement) == SQLITE_OK);
}

static void text_at(sqlite3_stmt *statement, int place, const char *text)
{
    want(sqlite3_bind_text(statement, place, text, -1, SQLITE_TRANSIENT) == SQLITE_OK);
}

static void number_at(sqlite3_stmt *statement, int place, long number)
{
    want(sqlite3_bind_int64(statement, place, number) == SQLITE_OK);
}

static void commands(long count)
{
    sqlite3_stmt *add = prepared("INSERT INTO releases VALUES (?1, ?2, 'binary', 'open', 0)");
    sqlite3_stmt *begin = prepared("BEGIN IMMEDIATE"), *commit = prepared("COMMIT");
    char name[32];

    for (long place = 1; place <= count; place++) {
        snprintf(name, sizeof name, "s%ld", place);
        step(begin);
        text_at(add, 1, name);
        number_at(add, 2, place + 1000000);
        step(add);
        step(commit);
    }
}

static void adopt(long count)
{
    sqlite3_stmt *add = prepared("INSERT INTO adoption VALUES (1, ?1, 'MIT')");
    sqlite3_stmt *begin = prepared("BEGIN IMMEDIATE"), *commit = prepared("COMMIT");
    char reference[32];

    for (long place = 0; place < count; place++) {
        snprintf(reference, sizeof reference, "LicenseRef-%ld", place);
        step(begin);
        text_at(add, 1, reference);
        step(add);
        step(commit);
    }
}

static void withdraw(long count)
{
    sqlite3_stmt *duty = prepared("UPDATE duty SET state = 'withdrawn' WHERE number = ?1");
    sqlite3_stmt *change = prepared("INSERT INTO change VALUES (?1, 2, '2025-04-02', 'withdrawn', 'w')");

    run("BEGIN IMMEDIATE");
    run("UPDATE releases SET state = 'withdrawn' WHERE name = 'r'");
    run("DELETE FROM choice WHERE release = 'r'");
    for (long number = 1; number <= count; number++) {
        number_at(duty, 1, number);
        step(duty);
        number_at(change, 1, number);
        step(change);
    }
    run("COMMIT");
}

static int by_bytes(const void *one, const void *other)
{
    return strcmp(*(char *const *)one, *(char *const *)other);
}

/* The ids of this many packages, in the desk's order. */
static char **packages(long count)
{
    char **ids = malloc((count + 1) * sizeof *ids);

    want(ids != NULL);
    for (long place = 0; place < count; place++)
        want((ids[place] = sqlite3_mprintf("SPDXRef-p%ld", place)) != NULL);
    qsort(ids, count, sizeof *ids, by_bytes);
    return ids;
}

static void freeze(long count)
{
    sqlite3_stmt *frozen = prepared("INSERT INTO frozen VALUES ('r', 1, ?1, 'mit', 'MIT')");
    sqlite3_stmt *duty = prepared("INSERT INTO duty VALUES (?1, 'r', 1, ?2, 'mit', ?3, 'MIT', 'open')");
    sqlite3_stmt *change = prepared("INSERT INTO change VALUES (?1, 1, '2025-03-03', 'raised', '')");
    char **ids = packages((count + 9) / 10), *package, code[32];

    run("BEGIN IMMEDIATE");
    run("UPDATE releases SET state = 'frozen', revision = 1 WHERE name = 'r'");
    for (long number = 1; number <= count; number++) {
        package = ids[(number - 1) / 10];
        snprintf(code, sizeof code, "duty-%ld", (number - 1) % 10);
        if ((number - 1) % 10 == 0) {
            text_at(frozen, 1, package);
            step(frozen);
        }
        number_at(duty, 1, number);
        text_at(duty, 2, package);
        text_at(duty, 3, code);
        step(duty);
        number_at(change, 1, number);
        step(change);
    }
    run("COMMIT");
}

static void totals(long count)
{
    sqlite3_stmt *rows = prepared("SELECT state, count(*) FROM duty WHERE release = 'r' GROUP BY state");

    for (long turn = 0; turn < count; turn++) {
        while (sqlite3_step(rows) == SQLITE_ROW)
            ;
        sqlite3_reset(rows);
    }
}

static void read_all(void)
{
    sqlite3_stmt *rows = prepared("SELECT number, release, state FROM duty");
    long count = 0;

    while (sqlite3_step(rows) == SQLITE_ROW)
        count += sqlite3_column_int64(rows, 0) > 0;
    if (count == 0)
        exit(1);
}

int main(int count, char **words)
{
    struct timespec begun, ended;
    long rows;

    if (count != 4)
        return 2;
    rows = atol(words[3]);
    clock_gettime(CLOCK_MONOTONIC, &begun);
    want(sqlite3_open(words[2], &desk) == SQLITE_OK);
    run("PRAGMA locking_mode = EXCLUSIVE");
    run("PRAGMA journal_mode = WAL");
    run("PRAGMA synchronous = FULL");
    if (!strcmp(words[1], "open")) {
        read_all();
    } else {
        clock_gettime(CLOCK_MONOTONIC, &begun);
        if (!strcmp(words[1], "commands"))
            commands(rows);
        else if (!strcmp(words[1], "adopt"))
            adopt(rows);
        else if (!strcmp(words[1], "withdraw"))
            withdraw(rows);
        else if (!strcmp(words[1], "freeze"))
            freeze(rows);
        else
            totals(rows);
    }
    clock_gettime(CLOCK_MONOTONIC, &ended);
    printf("%.6f\n", (double)(ended.tv_sec - begun.tv_sec) + (double)(ended.tv_nsec - begun.tv_nsec) / 1e9);
    return sqlite3_close_v2(desk) == SQLITE_OK ? 0 : 1;
}
