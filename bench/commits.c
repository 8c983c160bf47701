/* Rows that are put into an SQLite database by the statements of the keeper, in C over the installed library: bench/commits.py measures the program beside it.

   Usage: commits run --db FILE
   Each line of standard input is a key, a space and a body. It is put as a row in a transaction of its own, with the number of the line as its
   version, and answered by the line "200 ". Answers are written before the next piece of the input is read. */
#include <sqlite3.h>
#include <stdio.h>
#include <stdlib.h>
#include <string.h>
#include <unistd.h>

enum { PIECE = 65536, LINE = 1 << 20 };

static sqlite3 *db;
static sqlite3_stmt *begin, *replace, *add, *end, *commit;

static void check(int code, int wanted)
{
    if (code != wanted) {
        fprintf(stderr, "commits: %s\n", sqlite3_errmsg(db));
        exit(1);
    }
}

static void run(const char *text)
{
    check(sqlite3_exec(db, text, NULL, NULL, NULL), SQLITE_OK);
}

static sqlite3_stmt *prepare(const char *text)
{
    sqlite3_stmt *statement;
    check(sqlite3_prepare_v3(db, text, -1, SQLITE_PREPARE_PERSISTENT, &statement, NULL), SQLITE_OK);
    return statement;
}

static void step(sqlite3_stmt *statement)
{
    check(sqlite3_step(statement), SQLITE_DONE);
    check(sqlite3_reset(statement), SQLITE_OK);
}

static void open_database(const char *path)
{
    check(sqlite3_open(path, &db), SQLITE_OK);
    run("PRAGMA journal_mode = WAL; PRAGMA synchronous = FULL;"
        "CREATE TABLE objects(key TEXT PRIMARY KEY, version INTEGER NOT NULL, body TEXT NOT NULL);"
        "CREATE TABLE meta(one INTEGER PRIMARY KEY CHECK (one = 1), schema INTEGER NOT NULL, version INTEGER NOT NULL);"
        "INSERT INTO meta(one, schema, version) VALUES (1, 2, 0);");
    begin = prepare("BEGIN");
    replace = prepare("UPDATE objects SET version = ?2, body = ?3 WHERE key = ?1");
    add = prepare("INSERT INTO objects(key, version, body) VALUES (?1, ?2, ?3)");
    end = prepare("UPDATE meta SET version = ?1 WHERE one = 1");
    commit = prepare("COMMIT");
}

static void put(sqlite3_stmt *statement, const char *key, int key_length, sqlite3_int64 version, const char *body, int body_length)
{
    check(sqlite3_bind_text(statement, 1, key, key_length, SQLITE_STATIC), SQLITE_OK);
    check(sqlite3_bind_int64(statement, 2, version), SQLITE_OK);
    check(sqlite3_bind_text(statement, 3, body, body_length, SQLITE_STATIC), SQLITE_OK);
    step(statement);
}

static void commit_line(const char *line, int length, sqlite3_int64 version)
{
    const char *space = memchr(line, ' ', length);
    if (!space) {
        fprintf(stderr, "commits: a line without a body\n");
        exit(1);
    }
    int key_length = (int)(space - line);
    const char *body = space + 1;
    int body_length = length - key_length - 1;
    step(begin);
    put(replace, line, key_length, version, body, body_length);
    if (sqlite3_changes(db) == 0)
        put(add, line, key_length, version, body, body_length);
    check(sqlite3_bind_int64(end, 1, version), SQLITE_OK);
    step(end);
    step(commit);
    fputs("200 \n", stdout);
}

int main(int count, char **words)
{
    static char text[LINE + PIECE];
    size_t held = 0;
    sqlite3_int64 version = 0;
    ssize_t got;
    if (count != 4 || strcmp(words[1], "run") || strcmp(words[2], "--db")) {
        fprintf(stderr, "usage: commits run --db FILE\n");
        return 1;
    }
    open_database(words[3]);
    while ((got = read(STDIN_FILENO, text + held, PIECE)) > 0) {
        char *line = text, *feed;
        held += (size_t)got;
        while ((feed = memchr(line, '\n', held - (size_t)(line - text)))) {
            commit_line(line, (int)(feed - line), ++version);
            line = feed + 1;
        }
        held -= (size_t)(line - text);
        if (held > LINE) {
            fprintf(stderr, "commits: a line that is too long\n");
            return 1;
        }
        memmove(text, line, held);
        fflush(stdout);
    }
    sqlite3_finalize(begin);
    sqlite3_finalize(replace);
    sqlite3_finalize(add);
    sqlite3_finalize(end);
    sqlite3_finalize(commit);
    check(sqlite3_close(db), SQLITE_OK);
    return got < 0;
}
