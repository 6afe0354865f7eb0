/* SQLite by its C interface, as a program that takes commands: what it costs without a language in between.

   usage: sqlite DATABASE LOCKING

   Each line of its input is a command; a line answers it.
   - sql TEXT: executes a statement;
   - load FILE: inserts rows in one transaction;
   - run FILE WARM SECONDS FIRST: executes requests one after another, again and again, for some seconds after a warm-up.
   A file has records, each ended by the byte 30, with the byte 31 between its parts. A row has an id and a body. Of the requests the first record
   has the number of statements, and as many records follow, a statement each. Each further one is a request: the number of its statement,
   the right number of rows (-1: it is not a query), the ids of the first and the last row, and the values, each a letter and its text: i for a
   whole number, t for a text, d for one that ends in ten digits, which ascend from FIRST on. A wrong answer ends the program with status 2. */
#define _GNU_SOURCE
#include <sqlite3.h>

#include "waits.h"

enum { STATEMENTS = 8, PARTS = 8, RECORD_END = 30 };

#define BETWEEN "\x1f"

typedef struct {
    int statement, values;
    long count;
    char *first, *last, *value[PARTS];
} Request;

static sqlite3 *database;
static uint64_t number;

static void refuse(const char *what) {
    fprintf(stderr, "sqlite: %s: %s\n", what, database ? sqlite3_errmsg(database) : "");
    exit(2);
}

static void execute(const char *statement) {
    if (sqlite3_exec(database, statement, NULL, NULL, NULL) != SQLITE_OK) refuse(statement);
}

static sqlite3_stmt *prepared(const char *statement) {
    sqlite3_stmt *found;
    if (sqlite3_prepare_v2(database, statement, -1, &found, NULL) != SQLITE_OK) refuse(statement);
    return found;
}

/* Reads the next record, without its end. Returns NULL after the last. */
static char *record(FILE *file) {
    char *text = NULL;
    size_t size = 0;
    ssize_t length = getdelim(&text, &size, RECORD_END, file);
    if (length <= 0) return free(text), NULL;
    text[length - 1] = 0;
    return text;
}

static FILE *opened(const char *name) {
    FILE *file = fopen(name, "r");
    if (!file) fail(name);
    return file;
}

/* Reads the record of a request; the parts stay where they are in it. */
static Request parsed(char *text) {
    Request request = {0};
    request.statement = atoi(strsep(&text, BETWEEN));
    request.count = atol(strsep(&text, BETWEEN));
    request.first = strsep(&text, BETWEEN);
    request.last = strsep(&text, BETWEEN);
    while (text && request.values < PARTS) request.value[request.values++] = strsep(&text, BETWEEN);
    return request;
}

static void bind(sqlite3_stmt *statement, const Request *request) {
    for (int at = 0; at < request->values; at++) {
        char *value = request->value[at];
        if (value[0] == 'd') put_digits(value + strlen(value) - 10, number++);
        int code = value[0] == 'i' ? sqlite3_bind_int64(statement, at + 1, atoll(value + 1))
                                   : sqlite3_bind_text(statement, at + 1, value + 1, -1, SQLITE_STATIC);
        if (code != SQLITE_OK) refuse("a value");
    }
}

/* Executes a request, reads both columns of each row, and compares the number of rows, the first and the last. */
static void ask(sqlite3_stmt *statement, const Request *request) {
    static char last[256];
    long count = 0, bytes = 0;
    int code;
    bind(statement, request);
    while ((code = sqlite3_step(statement)) == SQLITE_ROW) {
        const char *id = (const char *)sqlite3_column_text(statement, 0);
        bytes += strlen((const char *)sqlite3_column_text(statement, 1));
        if (count++ == 0 && strcmp(id, request->first) != 0) refuse("the first row is wrong");
        snprintf(last, sizeof last, "%s", id);
    }
    if (code != SQLITE_DONE) refuse("a request");
    if (request->count >= 0 && (count != request->count || strcmp(last, request->last) != 0 || bytes == 0)) refuse("the rows are wrong");
    if (request->count < 0 && sqlite3_changes(database) != 1) refuse("nothing was written");
    sqlite3_reset(statement);
}

static void load(const char *name) {
    FILE *file = opened(name);
    sqlite3_stmt *statement = prepared("INSERT INTO docs VALUES (?, ?)");
    long count = 0;
    execute("BEGIN");
    for (char *text; (text = record(file)); free(text), count++) {
        char *body = text, *id = strsep(&body, BETWEEN);
        sqlite3_bind_text(statement, 1, id, -1, SQLITE_STATIC);
        sqlite3_bind_text(statement, 2, body, -1, SQLITE_STATIC);
        if (sqlite3_step(statement) != SQLITE_DONE) refuse("a row");
        sqlite3_reset(statement);
    }
    execute("COMMIT");
    sqlite3_finalize(statement);
    fclose(file);
    printf("%ld\n", count);
}

static void run(const char *name, double warm, double seconds) {
    FILE *file = opened(name);
    sqlite3_stmt *statements[STATEMENTS] = {0};
    char *text = record(file);
    for (int at = 0, count = text ? atoi(text) : 0; at < count && at < STATEMENTS; at++) statements[at] = prepared(record(file));
    Request *requests = NULL;
    size_t length = 0, room = 0;
    while ((text = record(file))) {
        if (length == room) requests = grown(requests, (room = room * 2 + 1000) * sizeof *requests);
        requests[length++] = parsed(text);
    }
    fclose(file);
    uint64_t begun = now() + (uint64_t)(warm * 1e9), end = begun + (uint64_t)(seconds * 1e9), used = 0, time = now();
    waits_size = 0;
    for (size_t at = 0; time < end || !waits_size; at++) {
        if (time >= begun && !used) begun = time, used = clock_of(CLOCK_PROCESS_CPUTIME_ID);
        uint64_t start = time;
        ask(statements[requests[at % length].statement], &requests[at % length]);
        time = now();
        if (used) note_wait(time - start);
    }
    printf("{\"wrong\":0,");
    report_waits(time - begun, clock_of(CLOCK_PROCESS_CPUTIME_ID) - used);
    puts("}");
    for (int at = 0; at < STATEMENTS; at++) sqlite3_finalize(statements[at]);
    free(requests);
}

int main(int count, char **words) {
    char *line = NULL, text[100];
    size_t size = 0;
    if (count != 3 || sqlite3_open(words[1], &database) != SQLITE_OK) refuse("usage: sqlite DATABASE LOCKING");
    sqlite3_busy_timeout(database, 60000);
    snprintf(text, sizeof text, "PRAGMA locking_mode = %s", words[2]);
    execute(text);
    execute("PRAGMA journal_mode = WAL; PRAGMA synchronous = OFF; PRAGMA mmap_size = 16000000000");
    while (getline(&line, &size, stdin) > 0) {
        char *rest = line, *command = strsep(&rest, " ");
        rest[strcspn(rest, "\n")] = 0;
        if (strcmp(command, "sql") == 0) execute(rest), puts("done");
        else if (strcmp(command, "load") == 0) load(rest);
        else {
            const char *name = strsep(&rest, " ");
            double warm = atof(strsep(&rest, " ")), seconds = atof(strsep(&rest, " "));
            number = strtoull(rest, NULL, 10);
            run(name, warm, seconds);
        }
        fflush(stdout);
    }
    return 0;
}
