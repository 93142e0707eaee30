/* The numbered calls of run_numbered by libmongoc, a thread for each client: numbered_c URI FIRST CLIENTS CALLS
 *
 * They are those of numbered.py. Every other client is of a pool of its own, whose monitor is a thread.
 */
#include <mongoc/mongoc.h>
#include <pthread.h>
#include <stdarg.h>
#include <stdatomic.h>
#include <stdio.h>
#include <stdlib.h>
#include <string.h>
#include <unistd.h>

enum { MOST = 10000000, WALKED = 10, BATCH = 3, LARGE = 10000, PAUSE = 20000, DIGITS = 12, SAID = 400 };

/* How a step of a client went. */
enum went { WELL, LOST, WRONG };

/* A client, whose documents have numbers that are no other client's. */
struct client {
    int number, calls, turn;
    atomic_int made, ended;
    int lost, wrong, silent, unseen;
    mongoc_client_t *driver;
    mongoc_collection_t *items[2];
    char *text;
    pthread_t thread;
};

/* The document of a turn, and its collection. */
struct numbered {
    int id, n, at;
    const char *text;
};

static const char *uri_text;
static bson_t none = BSON_INITIALIZER;

static enum went wrong(struct client *c, const char *format, ...)
{
    va_list words;
    char said[SAID];
    va_start(words, format);
    vsnprintf(said, sizeof said, format, words);
    va_end(words);
    printf("wrong client %d: %s\n", c->number, said);
    fflush(stdout);
    c->wrong = 1;
    return WRONG;
}

static bool is_network(const bson_error_t *error)
{
    return error->domain == MONGOC_ERROR_STREAM || error->domain == MONGOC_ERROR_SERVER_SELECTION;
}

/* Tells how a call went, which failed by this error where it isn't well. */
static enum went called(struct client *c, const char *what, bool well, const bson_error_t *error)
{
    if (well)
        return WELL;
    if (!is_network(error))
        return wrong(c, "%s: %s", what, error->message);
    c->lost++;
    return LOST;
}

/* Tells whether a field of an answer is this number. */
static enum went counted(struct client *c, const char *what, const bson_t *answer, const char *name, int wanted)
{
    bson_iter_t at;
    if (bson_iter_init_find(&at, answer, name) && BSON_ITER_HOLDS_INT(&at) && bson_iter_as_int64(&at) == wanted)
        return WELL;
    return wrong(c, "%s: %s isn't %d", what, name, wanted);
}

static struct numbered document(struct client *c, int times)
{
    struct numbered of = {c->number * MOST + c->turn * WALKED, c->turn, c->turn / 8 % 2, c->text};
    char digits[DIGITS];
    int size = snprintf(digits, sizeof digits, "%d", of.id);
    for (int i = 0; i < times; i++)
        memcpy(c->text + i * size, digits, (size_t)size);
    c->text[times * size] = '\0';
    return of;
}

static struct numbered usual(struct client *c)
{
    return document(c, c->turn % 60);
}

static bson_t *bson_of(struct numbered of)
{
    return BCON_NEW("_id", BCON_INT32(of.id), "n", BCON_INT32(of.n), "text", BCON_UTF8(of.text));
}

static bson_t *key_of(struct numbered of)
{
    return BCON_NEW("_id", BCON_INT32(of.id));
}

static enum went insert(struct client *c, struct numbered of)
{
    bson_t *made = bson_of(of), answer;
    bson_error_t error;
    c->made++;
    enum went went = called(c, "insert", mongoc_collection_insert_one(c->items[of.at], made, NULL, &answer, &error), &error);
    if (went == WELL)
        went = counted(c, "insert", &answer, "insertedCount", 1);
    bson_destroy(&answer);
    bson_destroy(made);
    return went;
}

/* Finds a document by its number, which is this one or, if wanted is NULL, none. An unacknowledged write may not be there. */
static enum went find_as(struct client *c, struct numbered of, int at, const bson_t *wanted, bool *there)
{
    bson_t *key = key_of(of), *one = BCON_NEW("limit", BCON_INT64(1), "singleBatch", BCON_BOOL(true));
    const bson_t *found = NULL;
    bson_error_t error;
    c->made++;
    mongoc_cursor_t *cursor = mongoc_collection_find_with_opts(c->items[at], key, one, NULL);
    *there = mongoc_cursor_next(cursor, &found);
    enum went went = called(c, "find", !mongoc_cursor_error(cursor, &error), &error);
    if (went == WELL && *there && (wanted == NULL || !bson_equal(found, wanted)))
        went = wrong(c, "find %d gave another document, of %u bytes", of.id, found->len);
    mongoc_cursor_destroy(cursor);
    bson_destroy(one);
    bson_destroy(key);
    return went;
}

static enum went find(struct client *c, struct numbered of)
{
    bson_t *wanted = bson_of(of);
    bool there;
    enum went went = find_as(c, of, of.at, wanted, &there);
    if (went == WELL && !there)
        went = wrong(c, "find %d gave none", of.id);
    bson_destroy(wanted);
    return went;
}

static enum went delete(struct client *c, struct numbered of)
{
    bson_t *key = key_of(of), answer;
    bson_error_t error;
    c->made++;
    enum went went = called(c, "delete", mongoc_collection_delete_one(c->items[of.at], key, NULL, &answer, &error), &error);
    if (went == WELL)
        went = counted(c, "delete", &answer, "deletedCount", 1);
    bson_destroy(&answer);
    bson_destroy(key);
    return went;
}

/* Asks for a command that isn't there, whose name comes back. */
static enum went say(struct client *c)
{
    char name[2 * DIGITS + 8], wanted[2 * DIGITS + 40];
    bson_error_t error = {0};
    snprintf(name, sizeof name, "say%dx%d", c->number, ++c->made);
    snprintf(wanted, sizeof wanted, "no such command: '%s'", name);
    bson_t *command = BCON_NEW(name, BCON_INT32(1));
    bool well = mongoc_client_command_simple(c->driver, "admin", command, NULL, NULL, &error);
    bson_destroy(command);
    if (well)
        return wrong(c, "%s gave no error", name);
    if (error.domain == MONGOC_ERROR_SERVER || error.domain == MONGOC_ERROR_QUERY)
        return strcmp(error.message, wanted) == 0 ? WELL : wrong(c, "%s gave %s", name, error.message);
    return called(c, name, false, &error);
}

static enum went plain(struct client *c)
{
    struct numbered of = usual(c);
    enum went went = insert(c, of);
    if (went == WELL)
        went = find(c, of);
    if (went == WELL)
        went = say(c);
    return went == WELL ? delete(c, of) : went;
}

static enum went large(struct client *c)
{
    struct numbered of = document(c, LARGE);
    enum went went = insert(c, of);
    if (went == WELL)
        went = find(c, of);
    return went == WELL ? delete(c, of) : went;
}

/* Tells whether the one document that was upserted has this number. */
static enum went upserted(struct client *c, const bson_t *answer, int id)
{
    bson_iter_t all, at;
    if (bson_iter_init(&all, answer) && bson_iter_find_descendant(&all, "upserted.0._id", &at) && BSON_ITER_HOLDS_INT32(&at)
        && bson_iter_int32(&at) == id)
        return WELL;
    if (bson_iter_init_find(&at, answer, "upsertedId") && BSON_ITER_HOLDS_INT32(&at) && bson_iter_int32(&at) == id)
        return WELL;
    return wrong(c, "upsert of %d gave another _id", id);
}

static enum went put(struct client *c, struct numbered of)
{
    bson_t *key = key_of(of), answer, *options = BCON_NEW("upsert", BCON_BOOL(true));
    bson_t *set = BCON_NEW("$set", "{", "n", BCON_INT32(of.n), "text", BCON_UTF8(of.text), "}");
    bson_error_t error;
    c->made++;
    bool well = mongoc_collection_update_one(c->items[of.at], key, set, options, &answer, &error);
    enum went went = called(c, "upsert", well, &error);
    if (went == WELL)
        went = upserted(c, &answer, of.id);
    bson_destroy(&answer);
    bson_destroy(set);
    bson_destroy(options);
    bson_destroy(key);
    return went;
}

static enum went upsert(struct client *c)
{
    struct numbered of = usual(c);
    bool there;
    enum went went = put(c, of);
    if (went == WELL)
        went = find(c, of);
    if (went == WELL)
        went = find_as(c, of, 1 - of.at, NULL, &there);
    return went == WELL ? delete(c, of) : went;
}

static enum went fill(struct client *c, struct numbered of)
{
    bson_t *made[WALKED], answer;
    bson_error_t error;
    for (int i = 0; i < WALKED; i++)
        made[i] = BCON_NEW("_id", BCON_INT32(of.id + i), "n", BCON_INT32(i));
    c->made++;
    bool well = mongoc_collection_insert_many(c->items[of.at], (const bson_t **)made, WALKED, NULL, &answer, &error);
    enum went went = called(c, "insert", well, &error);
    if (went == WELL)
        went = counted(c, "insert", &answer, "insertedCount", WALKED);
    bson_destroy(&answer);
    for (int i = 0; i < WALKED; i++)
        bson_destroy(made[i]);
    return went;
}

/* Reads a document of a walk, which is a call of its own where a batch begins. */
static enum went step(struct client *c, mongoc_cursor_t *cursor, int id, int i)
{
    const bson_t *found;
    bson_error_t error;
    c->made += i % BATCH == 0;
    if (!mongoc_cursor_next(cursor, &found)) {
        enum went went = called(c, "walk", !mongoc_cursor_error(cursor, &error), &error);
        return went == WELL ? wrong(c, "walk gave the end in place of document %d", i) : went;
    }
    bson_t *wanted = BCON_NEW("_id", BCON_INT32(id + i), "n", BCON_INT32(i));
    bool well = bson_equal(found, wanted);
    bson_destroy(wanted);
    return well ? WELL : wrong(c, "walk gave another document in place of %d", id + i);
}

/* Reads documents by a cursor of several batches. */
static enum went read_all(struct client *c, struct numbered of, const bson_t *own)
{
    bson_t *options = BCON_NEW("batchSize", BCON_INT64(BATCH));
    mongoc_cursor_t *cursor = mongoc_collection_find_with_opts(c->items[of.at], own, options, NULL);
    const bson_t *more;
    enum went went = WELL;
    for (int i = 0; i < WALKED && went == WELL; i++)
        went = step(c, cursor, of.id, i);
    if (went == WELL && mongoc_cursor_next(cursor, &more))
        went = wrong(c, "walk gave a document behind the last one");
    mongoc_cursor_destroy(cursor);
    bson_destroy(options);
    return went;
}

static enum went walk(struct client *c)
{
    struct numbered of = document(c, 0);
    bson_t *own = BCON_NEW("_id", "{", "$gte", BCON_INT32(of.id), "$lt", BCON_INT32(of.id + WALKED), "}"), answer;
    bson_error_t error;
    enum went went = fill(c, of);
    if (went == WELL)
        went = read_all(c, of, own);
    if (went == WELL) {
        c->made++;
        went = called(c, "delete", mongoc_collection_delete_many(c->items[of.at], own, NULL, &answer, &error), &error);
        if (went == WELL)
            went = counted(c, "delete", &answer, "deletedCount", WALKED);
        bson_destroy(&answer);
    }
    bson_destroy(own);
    return went;
}

/* Makes a write that has no answer. The next call over the same connection sees what it did. */
static enum went write_silently(struct client *c)
{
    struct numbered of = usual(c);
    bson_t *made = bson_of(of), *options = BCON_NEW("writeConcern", "{", "w", BCON_INT32(0), "}");
    bson_error_t error;
    bool there, well = mongoc_collection_insert_one(c->items[of.at], made, options, NULL, &error);
    enum went went = well ? WELL : is_network(&error) ? LOST : wrong(c, "insert: %s", error.message);
    if (went == WELL) {
        c->silent++;
        went = find_as(c, of, of.at, made, &there);
    }
    bson_destroy(options);
    bson_destroy(made);
    if (went == WELL && !there)
        c->unseen++;
    return went == WELL && there ? delete(c, of) : went;
}

/* Deletes what lost calls may have left. */
static enum went clear(struct client *c)
{
    bson_error_t error;
    enum went went = WELL;
    for (int i = 0; i < 2 && went == WELL; i++) {
        c->made++;
        went = called(c, "delete", mongoc_collection_delete_many(c->items[i], &none, NULL, NULL, &error), &error);
    }
    return went;
}

static enum went next(struct client *c)
{
    static const struct turn {
        int cost;
        enum went (*make)(struct client *);
    } turns[] = {{4, plain}, {4, upsert}, {4, plain}, {2, write_silently}, {4, plain}, {4, upsert}, {4, plain}, {6, walk}, {3, large}};
    struct turn turn = turns[c->turn % 64 == 63 ? 8 : c->turn % 8];
    return turn.cost <= c->calls - c->made ? turn.make(c) : say(c);
}

static void make_calls(struct client *c)
{
    enum went went = WELL;
    while (c->made < c->calls && went != WRONG) {
        went = went == LOST && c->calls - c->made > 1 ? clear(c) : WELL;
        if (went == WELL)
            went = next(c);
        if (went == LOST)
            usleep(PAUSE);
        c->turn++;
    }
}

static void *run(void *own)
{
    struct client *c = own;
    mongoc_uri_t *uri = mongoc_uri_new(uri_text);
    mongoc_client_pool_t *pool = c->number % 2 ? mongoc_client_pool_new(uri) : NULL;
    char name[DIGITS + 4];
    snprintf(name, sizeof name, "of_%d", c->number);
    c->driver = pool ? mongoc_client_pool_pop(pool) : mongoc_client_new_from_uri(uri);
    c->text = malloc(LARGE * DIGITS);
    for (int i = 0; i < 2; i++)
        c->items[i] = mongoc_client_get_collection(c->driver, i ? "odd" : "even", name);
    make_calls(c);
    for (int i = 0; i < 2; i++)
        mongoc_collection_destroy(c->items[i]);
    free(c->text);
    if (pool) {
        mongoc_client_pool_push(pool, c->driver);
        mongoc_client_pool_destroy(pool);
    } else {
        mongoc_client_destroy(c->driver);
    }
    mongoc_uri_destroy(uri);
    c->ended = 1;
    return NULL;
}

/* Tells how many calls each client made. Returns true once all ended. */
static bool tell(struct client *clients, int count)
{
    bool all = true;
    for (int i = 0; i < count; i++)
        all = all && clients[i].ended;
    if (all)
        return true;
    flockfile(stdout); /* so that no line of a client comes between */
    printf("at");
    for (int i = 0; i < count; i++) {
        if (clients[i].ended)
            printf(" -");
        else
            printf(" %d", clients[i].made);
    }
    printf("\n");
    fflush(stdout);
    funlockfile(stdout);
    return false;
}

int main(int argc, char **argv)
{
    if (argc != 5)
        return 2;
    int first = atoi(argv[2]), count = atoi(argv[3]), calls = atoi(argv[4]);
    struct client *clients = calloc((size_t)count, sizeof *clients);
    long made = 0, lost = 0, wrong = 0, silent = 0, unseen = 0;
    uri_text = argv[1];
    mongoc_init();
    mongoc_log_set_handler(NULL, NULL); /* which would tell of connections that are cut */
    for (int i = 0; i < count; i++) {
        clients[i].number = first + i;
        clients[i].calls = calls / count + (i < calls % count);
        if (pthread_create(&clients[i].thread, NULL, run, &clients[i]) != 0)
            return 1;
    }
    for (int turns = 1; !tell(clients, count); turns++)
        usleep(turns < 10 ? 100000 : 1000000);
    for (int i = 0; i < count; i++) {
        pthread_join(clients[i].thread, NULL);
        made += clients[i].made;
        lost += clients[i].lost;
        wrong += clients[i].wrong;
        silent += clients[i].silent;
        unseen += clients[i].unseen;
    }
    printf("end %ld %ld %ld %ld %ld\n", made, lost, wrong, silent, unseen);
    free(clients);
    mongoc_cleanup();
    return 0;
}
