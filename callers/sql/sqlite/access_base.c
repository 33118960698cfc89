/* The access base in SQL, as a loadable extension of SQLite: SELECT load_extension('.../access_base').
 *
 *   access_base_empty()                        a base with nothing in it
 *   access_base_is_sound(base)                 1 or 0; NULL for NULL
 *   access_base_reply(base, line)              the reply to one line of the text session
 *   access_base_after(base, line)              the base after it
 *   access_base_may(base, subject, mode, object, instant)           1 or 0
 *   access_base_sheet(base, object)            the rights sheet of a meter, as text
 *   access_base_runs(base, subject, mode, object)                   rows of starts, ends
 *   access_base_heading(base), _objects, _administrators, _referrers, _authorizations, _rules    rows
 *
 * A base is a BLOB. A question that the library refuses is an error; a refused request is a reply. */
#include <sqlite3ext.h>
SQLITE_EXTENSION_INIT1
#include <string.h>

#include "../layer.h"

#define NOT_A_BASE "the base is no BLOB: give access_base_empty() or a stored base"
#define NOT_A_NUMBER "a number is missing, no integer, or not within 0 to 4294967295"

/* ---- arguments: each is checked, and what is lent to the library is a copy */

/* A copy of a BLOB, or NULL if it is none (*fault says so) or memory is short (*fault is NULL). A value that cannot be a
 * base because of its length is not copied whole. */
static uint8_t *lent_copy(sqlite3_value *value, size_t *length, const char **fault)
{
    const void *bytes;
    uint8_t *copy;
    *fault = NULL;
    if (sqlite3_value_type(value) != SQLITE_BLOB) {
        *fault = NOT_A_BASE;
        return NULL;
    }
    bytes = sqlite3_value_blob(value);
    *length = (size_t)sqlite3_value_bytes(value);
    if (*length > 0 && bytes == NULL)
        return NULL;
    if (*length > ACCESS_BASE_BYTES + 1)
        *length = ACCESS_BASE_BYTES + 1;
    copy = sqlite3_malloc64(ACCESS_BASE_BYTES + 1);
    if (copy != NULL && *length > 0)
        memcpy(copy, bytes, *length);
    return copy;
}

static int number_of(sqlite3_value *value, uint32_t *number)
{
    sqlite3_int64 v;
    if (sqlite3_value_type(value) != SQLITE_INTEGER)
        return 0;
    v = sqlite3_value_int64(value);
    *number = (uint32_t)v;
    return v >= 0 && v <= (sqlite3_int64)ACCESS_BASE_LAST;
}

static char *refusal_text(uint32_t refusal)
{
    return sqlite3_mprintf("refused %u: %s", refusal, layer_what_to_do(refusal));
}

static void fail(sqlite3_context *context, const char *fault)
{
    if (fault == NULL)
        sqlite3_result_error_nomem(context);
    else
        sqlite3_result_error(context, fault, -1);
}

static void refuse(sqlite3_context *context, uint32_t refusal)
{
    char *text = refusal_text(refusal);
    fail(context, text);
    sqlite3_free(text);
}

/* A copy of argument 0 and the numbers behind it, for a function that fails without them: NULL then. */
static uint8_t *arguments(sqlite3_context *context, int n, sqlite3_value **a, size_t *length, uint32_t *x)
{
    const char *fault;
    uint8_t *base;
    for (int i = 1; i < n; i++)
        if (!number_of(a[i], &x[i - 1])) {
            fail(context, NOT_A_NUMBER);
            return NULL;
        }
    base = lent_copy(a[0], length, &fault);
    if (base == NULL)
        fail(context, fault);
    return base;
}

/* ---- scalar functions */

static void empty(sqlite3_context *context, int n, sqlite3_value **a)
{
    uint8_t *base = sqlite3_malloc64(ACCESS_BASE_BYTES);
    (void)n, (void)a;
    if (base == NULL) {
        fail(context, NULL);
        return;
    }
    (void)access_base_make(base, ACCESS_BASE_BYTES);
    sqlite3_result_blob(context, base, ACCESS_BASE_BYTES, sqlite3_free);
}

static void is_sound(sqlite3_context *context, int n, sqlite3_value **a)
{
    size_t length;
    const char *fault;
    uint8_t *base;
    (void)n;
    if (sqlite3_value_type(a[0]) == SQLITE_NULL)
        return;
    base = lent_copy(a[0], &length, &fault);
    if (base == NULL && fault == NULL) {
        fail(context, NULL);
        return;
    }
    sqlite3_result_int(context, base != NULL && access_base_is_sound(base, length));
    sqlite3_free(base);
}

/* One line put to a copy of the base; NULL after an error, otherwise the base after it, with the reply in out. Bytes that
 * are no base are an error here and no reply. */
static uint8_t *put_line(sqlite3_context *context, sqlite3_value **a, size_t *length, char *out, long *written)
{
    const char *fault;
    const uint8_t *line;
    size_t line_length;
    uint8_t *base, lent[ACCESS_BASE_LINE_BYTES];
    if (sqlite3_value_type(a[1]) != SQLITE_TEXT) {
        fail(context, "the line is no text: give one request as docs/SESSION.md has it");
        return NULL;
    }
    line = sqlite3_value_text(a[1]);
    line_length = (size_t)sqlite3_value_bytes(a[1]);
    if (line == NULL) {
        fail(context, NULL);
        return NULL;
    }
    fault = layer_line_fault(line, line_length);
    if (fault != NULL) {
        fail(context, fault);
        return NULL;
    }
    base = arguments(context, 1, a, length, NULL);
    if (base == NULL)
        return NULL;
    memcpy(lent, line, line_length);
    *written = layer_put(base, *length, lent, line_length, out);
    if (*written >= 0 && strcmp(out, "refused 2") != 0)
        return base;
    sqlite3_free(base);
    if (*written < 0)
        fail(context, "the library gave no reply: this is a fault of the extension, report it");
    else
        refuse(context, ACCESS_BASE_INVALID_BASE);
    return NULL;
}

/* The reply to a line, or the base after it. */
static void put(sqlite3_context *context, sqlite3_value **a, bool wants_base)
{
    size_t length;
    long written;
    char *out = sqlite3_malloc64(ACCESS_BASE_TEXT_BYTES);
    uint8_t *base;
    if (out == NULL) {
        fail(context, NULL);
        return;
    }
    base = put_line(context, a, &length, out, &written);
    if (base != NULL && wants_base)
        sqlite3_result_blob64(context, base, length, SQLITE_TRANSIENT);
    else if (base != NULL)
        sqlite3_result_text(context, out, (int)written, SQLITE_TRANSIENT);
    sqlite3_free(base);
    sqlite3_free(out);
}

static void reply(sqlite3_context *context, int n, sqlite3_value **a)
{
    (void)n;
    put(context, a, false);
}

static void after(sqlite3_context *context, int n, sqlite3_value **a)
{
    (void)n;
    put(context, a, true);
}

static void may(sqlite3_context *context, int n, sqlite3_value **a)
{
    size_t length;
    uint32_t x[4];
    struct access_base_reply r;
    uint8_t *base = arguments(context, n, a, &length, x);
    if (base == NULL)
        return;
    r = access_base_ask_may(base, length, x[0], x[1], x[2], x[3]);
    sqlite3_free(base);
    if (r.refusal != ACCESS_BASE_DONE)
        refuse(context, r.refusal);
    else
        sqlite3_result_int(context, r.number == 1);
}

static void sheet(sqlite3_context *context, int n, sqlite3_value **a)
{
    size_t length;
    uint32_t object;
    char *page;
    struct access_base_reply r;
    uint8_t *base = arguments(context, n, a, &length, &object);
    if (base == NULL)
        return;
    page = sqlite3_malloc64(ACCESS_BASE_SHEET_BYTES);
    if (page == NULL) {
        sqlite3_free(base);
        fail(context, NULL);
        return;
    }
    r = access_base_write_report(base, length, object, page, ACCESS_BASE_SHEET_BYTES);
    sqlite3_free(base);
    if (r.refusal == ACCESS_BASE_DONE) {
        sqlite3_result_text(context, page, (int)r.number, sqlite3_free);
        return;
    }
    sqlite3_free(page);
    refuse(context, r.refusal);
}

/* ---- table-valued functions: the heading, the five bodies, and behind them WHEN */

#define RUNS LAYER_BODIES

struct rows_table {
    sqlite3_vtab head;
    uint32_t body, columns;
    int arguments;
};

struct rows_cursor {
    sqlite3_vtab_cursor head;
    uint32_t *cells, count, at;
};

static const char *declaration(uint32_t body, char *text, int size)
{
    if (body == RUNS) {
        sqlite3_snprintf(size, text, "CREATE TABLE t(starts, ends, of_base HIDDEN, of_subject HIDDEN, of_mode HIDDEN, of_object HIDDEN)");
        return text;
    }
    sqlite3_snprintf(size, text, "CREATE TABLE t(");
    for (uint32_t i = 0; i < layer_bodies[body].columns; i++)
        sqlite3_snprintf(size - (int)strlen(text), text + strlen(text), "%s, ", layer_bodies[body].column[i]);
    sqlite3_snprintf(size - (int)strlen(text), text + strlen(text), "of_base HIDDEN)");
    return text;
}

static int rows_connect(sqlite3 *db, void *aux, int n, const char *const *a, sqlite3_vtab **out, char **error)
{
    char text[512];
    const uint32_t *body = aux;
    struct rows_table *table;
    int rc = sqlite3_declare_vtab(db, declaration(*body, text, sizeof text));
    (void)n, (void)a, (void)error;
    if (rc != SQLITE_OK)
        return rc;
    sqlite3_vtab_config(db, SQLITE_VTAB_INNOCUOUS);
    table = sqlite3_malloc64(sizeof *table);
    if (table == NULL)
        return SQLITE_NOMEM;
    memset(table, 0, sizeof *table);
    table->body = *body;
    table->columns = *body == RUNS ? 2 : layer_bodies[*body].columns;
    table->arguments = *body == RUNS ? 4 : 1;
    *out = &table->head;
    return SQLITE_OK;
}

static int rows_disconnect(sqlite3_vtab *head)
{
    sqlite3_free(head);
    return SQLITE_OK;
}

/* Every argument must be given, as a usable equation on its hidden column. */
static int rows_best(sqlite3_vtab *head, sqlite3_index_info *info)
{
    struct rows_table *table = (struct rows_table *)head;
    int found = 0, unusable = 0;
    for (int i = 0; i < info->nConstraint; i++) {
        int argument = info->aConstraint[i].iColumn - (int)table->columns;
        if (argument < 0 || argument >= table->arguments || info->aConstraint[i].op != SQLITE_INDEX_CONSTRAINT_EQ)
            continue;
        if (!info->aConstraint[i].usable) {
            unusable = 1;
            continue;
        }
        if (found & 1 << argument)
            continue;
        found |= 1 << argument;
        info->aConstraintUsage[i].argvIndex = argument + 1;
        info->aConstraintUsage[i].omit = 1;
    }
    if (found != (1 << table->arguments) - 1) {
        if (unusable)
            return SQLITE_CONSTRAINT;
        sqlite3_free(head->zErrMsg);
        head->zErrMsg = sqlite3_mprintf(table->body == RUNS ? "give access_base_runs(base, subject, mode, object)"
                                                            : "give one argument, the base");
        return SQLITE_ERROR;
    }
    info->estimatedCost = 100;
    info->estimatedRows = 50;
    return SQLITE_OK;
}

static int rows_open(sqlite3_vtab *head, sqlite3_vtab_cursor **out)
{
    struct rows_cursor *cursor = sqlite3_malloc64(sizeof *cursor);
    (void)head;
    if (cursor == NULL)
        return SQLITE_NOMEM;
    memset(cursor, 0, sizeof *cursor);
    *out = &cursor->head;
    return SQLITE_OK;
}

static int rows_close(sqlite3_vtab_cursor *head)
{
    sqlite3_free(((struct rows_cursor *)head)->cells);
    sqlite3_free(head);
    return SQLITE_OK;
}

static int rows_fail(sqlite3_vtab_cursor *head, char *text)
{
    if (text == NULL)
        return SQLITE_NOMEM;
    sqlite3_free(head->pVtab->zErrMsg);
    head->pVtab->zErrMsg = text;
    return SQLITE_ERROR;
}

static uint32_t fill_runs(struct rows_cursor *cursor, const uint8_t *base, size_t length, const uint32_t *x)
{
    struct access_base_reply r =
        access_base_ask_when(base, length, x[0], x[1], x[2], cursor->cells, 2 * ACCESS_BASE_PAIRS);
    cursor->count = r.refusal == ACCESS_BASE_DONE ? r.number : 0;
    return r.refusal;
}

static uint32_t fill_records(struct rows_cursor *cursor, const uint8_t *base, size_t length, uint32_t body)
{
    struct access_base_reply r = access_base_read(base, length, body, 0, cursor->cells, ACCESS_BASE_BODY_NUMBERS);
    cursor->count = r.refusal == ACCESS_BASE_DONE ? r.number : 0;
    return r.refusal;
}

static int rows_filter(sqlite3_vtab_cursor *head, int index, const char *name, int n, sqlite3_value **a)
{
    struct rows_cursor *cursor = (struct rows_cursor *)head;
    struct rows_table *table = (struct rows_table *)head->pVtab;
    uint32_t x[3], refusal;
    size_t length;
    const char *fault;
    uint8_t *base;
    (void)index, (void)name;
    cursor->count = cursor->at = 0;
    for (int i = 1; i < n; i++)
        if (!number_of(a[i], &x[i - 1]))
            return rows_fail(head, sqlite3_mprintf(NOT_A_NUMBER));
    if (cursor->cells == NULL)
        cursor->cells = sqlite3_malloc64(sizeof(uint32_t) * ACCESS_BASE_BODY_NUMBERS);
    if (cursor->cells == NULL)
        return SQLITE_NOMEM;
    base = lent_copy(a[0], &length, &fault);
    if (base == NULL)
        return fault == NULL ? SQLITE_NOMEM : rows_fail(head, sqlite3_mprintf("%s", fault));
    refusal = table->body == RUNS ? fill_runs(cursor, base, length, x) : fill_records(cursor, base, length, table->body);
    sqlite3_free(base);
    return refusal == ACCESS_BASE_DONE ? SQLITE_OK : rows_fail(head, refusal_text(refusal));
}

static int rows_next(sqlite3_vtab_cursor *head)
{
    ((struct rows_cursor *)head)->at++;
    return SQLITE_OK;
}

static int rows_eof(sqlite3_vtab_cursor *head)
{
    struct rows_cursor *cursor = (struct rows_cursor *)head;
    return cursor->at >= cursor->count;
}

static int rows_column(sqlite3_vtab_cursor *head, sqlite3_context *context, int i)
{
    struct rows_cursor *cursor = (struct rows_cursor *)head;
    uint32_t columns = ((struct rows_table *)head->pVtab)->columns;
    if (i >= 0 && (uint32_t)i < columns)
        sqlite3_result_int64(context, cursor->cells[(size_t)cursor->at * columns + (uint32_t)i]);
    return SQLITE_OK;
}

static int rows_rowid(sqlite3_vtab_cursor *head, sqlite3_int64 *row)
{
    *row = ((struct rows_cursor *)head)->at;
    return SQLITE_OK;
}

static const sqlite3_module rows = {
    .xConnect = rows_connect, .xBestIndex = rows_best, .xDisconnect = rows_disconnect, .xOpen = rows_open,
    .xClose = rows_close, .xFilter = rows_filter, .xNext = rows_next, .xEof = rows_eof, .xColumn = rows_column,
    .xRowid = rows_rowid};

/* ---- what the extension brings */

int sqlite3_accessbase_init(sqlite3 *db, char **error, const sqlite3_api_routines *api)
{
    static const struct {
        const char *name;
        int arguments;
        void (*call)(sqlite3_context *, int, sqlite3_value **);
    } functions[] = {{"access_base_empty", 0, empty}, {"access_base_is_sound", 1, is_sound},
                     {"access_base_reply", 2, reply}, {"access_base_after", 2, after}, {"access_base_may", 5, may},
                     {"access_base_sheet", 2, sheet}};
    static const uint32_t body[] = {0, 1, 2, 3, 4, 5, RUNS};
    int rc = SQLITE_OK;
    char name[64];
    (void)error;
    SQLITE_EXTENSION_INIT2(api);
    for (size_t i = 0; i < sizeof functions / sizeof *functions && rc == SQLITE_OK; i++)
        rc = sqlite3_create_function_v2(
            db, functions[i].name, functions[i].arguments, SQLITE_UTF8 | SQLITE_DETERMINISTIC | SQLITE_INNOCUOUS, NULL,
            functions[i].call, NULL, NULL, NULL);
    for (uint32_t i = 0; i <= LAYER_BODIES && rc == SQLITE_OK; i++) {
        sqlite3_snprintf(sizeof name, name, "access_base_%s", i == RUNS ? "runs" : layer_bodies[i].name);
        rc = sqlite3_create_module_v2(db, name, &rows, (void *)&body[i], NULL);
    }
    return rc;
}
