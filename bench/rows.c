/* Puts the rows of a desk's commands into its file with SQLite's C library, and tells how long that took.

   rows FILE          on the file, with a log (WAL) and synchronous FULL
   rows FILE memory   on a copy of the file in memory

   Each line of standard input is a word and its values, with a tab before each value:
   begin, commit      the ends of a transaction
   TABLE VALUES       a row to put in
   ask BRANCH ARTICLE a field's numbers to select
   go                 does what was read since the last go, and answers `took MICROSECONDS`
   all                selects all rows of the seven tables in the order of their keys, and answers `read ROWS` */

#define _GNU_SOURCE
#include <sqlite3.h>
#include <stdio.h>
#include <stdlib.h>
#include <string.h>
#include <time.h>

enum { FORMS = 10, TABLES = 7, MOST_VALUES = 8 };

/* A statement, the word that names it, and its values: t is a text, n a number. */
struct form {
    const char *word;
    const char *values;
    const char *text;
};

static const struct form forms[FORMS] = {
    {"begin", "", "BEGIN"},
    {"commit", "", "COMMIT"},
    {"desk", "nnnn",
     "INSERT INTO desk (one, version, clock, places) VALUES (?1, ?2, ?3, ?4) "
     "ON CONFLICT (one) DO UPDATE SET version = ?2, clock = ?3, places = ?4"},
    {"field", "ttnnnnnn",
     "INSERT INTO field (branch, article, lo, hi, start, value, inf, sup) VALUES (?1, ?2, ?3, ?4, ?5, ?6, ?7, ?8) "
     "ON CONFLICT (branch, article) DO UPDATE SET lo = ?3, hi = ?4, start = ?5, value = ?6, inf = ?7, sup = ?8"},
    {"move", "nttn",
     "INSERT INTO move (place, branch, article, qty) VALUES (?1, ?2, ?3, ?4) "
     "ON CONFLICT (place) DO UPDATE SET branch = ?2, article = ?3, qty = ?4"},
    {"orders", "nnnn",
     "INSERT INTO orders (number, kind, until, state) VALUES (?1, ?2, ?3, ?4) "
     "ON CONFLICT (number) DO UPDATE SET kind = ?2, until = ?3, state = ?4"},
    {"line", "nnttnnn",
     "INSERT INTO line (number, nr, branch, article, way, held, used) VALUES (?1, ?2, ?3, ?4, ?5, ?6, ?7) "
     "ON CONFLICT (number, nr) DO UPDATE SET branch = ?3, article = ?4, way = ?5, held = ?6, used = ?7"},
    {"kept", "tnt",
     "INSERT INTO kept (reqkey, place, words) VALUES (?1, ?2, ?3) "
     "ON CONFLICT (reqkey) DO UPDATE SET place = ?2, words = ?3"},
    {"firm", "n", "INSERT INTO firm (number) VALUES (?1) ON CONFLICT (number) DO NOTHING"},
    {"ask", "tt", "SELECT lo, hi, value, inf, sup FROM field WHERE branch = ?1 AND article = ?2"},
};

static const char *const selects[TABLES] = {
    "SELECT one, version, clock, places FROM desk ORDER BY one",
    "SELECT branch, article, lo, hi, start, value, inf, sup, rowid FROM field ORDER BY branch, article",
    "SELECT place, branch, article, qty FROM move ORDER BY place",
    "SELECT number, kind, until, state FROM orders ORDER BY number",
    "SELECT number, nr, branch, article, way, held, used, rowid FROM line ORDER BY number, nr",
    "SELECT reqkey, place, words, rowid FROM kept ORDER BY reqkey",
    "SELECT number FROM firm ORDER BY number",
};

/* A statement to be done, with its values; the texts lie in the line that it was read from. */
struct step {
    int form;
    char *line;
    const char *texts[MOST_VALUES];
    sqlite3_int64 numbers[MOST_VALUES];
};

struct steps {
    struct step *items;
    size_t count;
    size_t room;
};

static sqlite3 *database;
static sqlite3_stmt *statements[FORMS];

static void fail(const char *what)
{
    fprintf(stderr, "rows: %s: %s\n", what, database ? sqlite3_errmsg(database) : "no database");
    exit(1);
}

static void expect(int fact, const char *what)
{
    if (!fact)
        fail(what);
}

static double microseconds(void)
{
    struct timespec now;
    expect(clock_gettime(CLOCK_MONOTONIC, &now) == 0, "clock");
    return 1e6 * (double)now.tv_sec + 1e-3 * (double)now.tv_nsec;
}

static sqlite3_stmt *prepared(const char *text)
{
    sqlite3_stmt *statement;
    expect(sqlite3_prepare_v2(database, text, -1, &statement, NULL) == SQLITE_OK, text);
    return statement;
}

/* Reads each value of the row where a statement stands. */
static void read_row(sqlite3_stmt *statement)
{
    for (int column = 0; column < sqlite3_column_count(statement); column++) {
        if (sqlite3_column_type(statement, column) == SQLITE_TEXT)
            (void)sqlite3_column_text(statement, column);
        else
            (void)sqlite3_column_int64(statement, column);
    }
}

/* Goes to a statement's end, and makes it ready to be done again: how many rows it gave. */
static size_t do_statement(sqlite3_stmt *statement)
{
    size_t rows = 0;
    int found;
    while ((found = sqlite3_step(statement)) == SQLITE_ROW) {
        read_row(statement);
        rows++;
    }
    expect(found == SQLITE_DONE && sqlite3_reset(statement) == SQLITE_OK, sqlite3_sql(statement));
    return rows;
}

static void do_step(const struct step *step)
{
    sqlite3_stmt *statement = statements[step->form];
    const char *values = forms[step->form].values;
    for (int place = 0; values[place]; place++) {
        int found = values[place] == 't'
            ? sqlite3_bind_text(statement, place + 1, step->texts[place], -1, SQLITE_STATIC)
            : sqlite3_bind_int64(statement, place + 1, step->numbers[place]);
        expect(found == SQLITE_OK, "bind");
    }
    size_t rows = do_statement(statement);
    expect(rows == (strcmp(forms[step->form].word, "ask") == 0), "rows of a statement");
}

static int form_of(const char *word)
{
    for (int form = 0; form < FORMS; form++)
        if (strcmp(word, forms[form].word) == 0)
            return form;
    fail(word);
    return 0;
}

/* The step that a line names; the line is cut into its values, and kept with it. */
static struct step read_step(char *line)
{
    struct step step = {.line = line};
    char *rest = line;
    step.form = form_of(strsep(&rest, "\t"));
    const char *values = forms[step.form].values;
    for (int place = 0; values[place]; place++) {
        char *value = strsep(&rest, "\t");
        expect(value != NULL, "a value is missing");
        step.texts[place] = value;
        step.numbers[place] = values[place] == 'n' ? strtoll(value, NULL, 10) : 0;
    }
    expect(rest == NULL, "a value too many");
    return step;
}

static void push(struct steps *steps, char *line)
{
    if (steps->count == steps->room) {
        steps->room = 2 * steps->room + 64;
        steps->items = realloc(steps->items, steps->room * sizeof *steps->items);
        expect(steps->items != NULL, "memory");
    }
    char *copy = strdup(line);
    expect(copy != NULL, "memory");
    steps->items[steps->count++] = read_step(copy);
}

/* Does the steps, and answers how long that took. */
static void go(struct steps *steps)
{
    double began = microseconds();
    for (size_t place = 0; place < steps->count; place++)
        do_step(&steps->items[place]);
    printf("took %.1f\n", microseconds() - began);
    for (size_t place = 0; place < steps->count; place++)
        free(steps->items[place].line);
    steps->count = 0;
}

static void select_all(void)
{
    size_t rows = 0;
    for (int table = 0; table < TABLES; table++) {
        sqlite3_stmt *statement = prepared(selects[table]);
        rows += do_statement(statement);
        sqlite3_finalize(statement);
    }
    printf("read %zu\n", rows);
}

/* Opens the file with a log, and each commit on the disk before the next. */
static void open_file(const char *path)
{
    expect(sqlite3_open_v2(path, &database, SQLITE_OPEN_READWRITE, NULL) == SQLITE_OK, path);
    sqlite3_stmt *mode = prepared("PRAGMA journal_mode = WAL");
    expect(sqlite3_step(mode) == SQLITE_ROW && strcmp((const char *)sqlite3_column_text(mode, 0), "wal") == 0, "WAL");
    sqlite3_finalize(mode);
    expect(sqlite3_exec(database, "PRAGMA synchronous = FULL", NULL, NULL, NULL) == SQLITE_OK, "FULL");
}

/* Goes on with a copy of the open file in memory. */
static void move_to_memory(void)
{
    sqlite3 *file = database;
    expect(sqlite3_open(":memory:", &database) == SQLITE_OK, "memory");
    sqlite3_backup *copy = sqlite3_backup_init(database, "main", file, "main");
    expect(copy != NULL && sqlite3_backup_step(copy, -1) == SQLITE_DONE, "copy");
    expect(sqlite3_backup_finish(copy) == SQLITE_OK && sqlite3_close(file) == SQLITE_OK, "copy");
}

static void serve(void)
{
    struct steps steps = {0};
    char *line = NULL;
    size_t room = 0;
    ssize_t length;
    while ((length = getline(&line, &room, stdin)) > 0) {
        line[length - 1] = '\0';
        if (strcmp(line, "go") == 0)
            go(&steps);
        else if (strcmp(line, "all") == 0)
            select_all();
        else
            push(&steps, line);
        expect(fflush(stdout) == 0, "output");
    }
    free(steps.items);
    free(line);
}

int main(int count, char **words)
{
    if (count == 2 && strcmp(words[1], "version") == 0)
        return printf("%s\n", sqlite3_libversion()) < 0;
    if (count != 2 && !(count == 3 && strcmp(words[2], "memory") == 0)) {
        fprintf(stderr, "rows FILE [memory] | rows version\n");
        return 2;
    }
    open_file(words[1]);
    if (count == 3)
        move_to_memory();
    for (int form = 0; form < FORMS; form++)
        statements[form] = prepared(forms[form].text);
    serve();
    for (int form = 0; form < FORMS; form++)
        sqlite3_finalize(statements[form]);
    expect(sqlite3_close(database) == SQLITE_OK, "close");
    return 0;
}
