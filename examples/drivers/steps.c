/* The steps of run_drivers by libmongoc: steps_c single|pooled URI COLLECTION */
#include <mongoc/mongoc.h>
#include <stdatomic.h>
#include <stdio.h>
#include <string.h>
#include <unistd.h>

static int failed;

/* What the driver's own log says. It tells no connections. */
static atomic_int heartbeats, faults;

static void fault(const char *name, const char *more)
{
    faults++;
    printf("log: %s %s\n", name, more);
}

static void heartbeat_succeeded(const mongoc_apm_server_heartbeat_succeeded_t *event)
{
    (void)event;
    heartbeats++;
}

static void heartbeat_failed(const mongoc_apm_server_heartbeat_failed_t *event)
{
    bson_error_t error;
    mongoc_apm_server_heartbeat_failed_get_error(event, &error);
    fault("heartbeat failed", error.message);
}

static void server_changed(const mongoc_apm_server_changed_t *event)
{
    const char *before = mongoc_server_description_type(mongoc_apm_server_changed_get_previous_description(event));
    const char *now = mongoc_server_description_type(mongoc_apm_server_changed_get_new_description(event));
    if (strcmp(before, "Unknown") != 0 && strcmp(now, "Unknown") == 0)
        fault("server lost", before);
}

static void command_failed(const mongoc_apm_command_failed_t *event)
{
    fault("command failed", mongoc_apm_command_failed_get_command_name(event));
}

static void logged(mongoc_log_level_t level, const char *domain, const char *text, void *data)
{
    (void)data;
    if (level <= MONGOC_LOG_LEVEL_WARNING)
        fault(domain, text);
}

static mongoc_apm_callbacks_t *callbacks(void)
{
    mongoc_apm_callbacks_t *all = mongoc_apm_callbacks_new();
    mongoc_apm_set_server_heartbeat_succeeded_cb(all, heartbeat_succeeded);
    mongoc_apm_set_server_heartbeat_failed_cb(all, heartbeat_failed);
    mongoc_apm_set_server_changed_cb(all, server_changed);
    mongoc_apm_set_command_failed_cb(all, command_failed);
    return all;
}

static void step(const char *name, bool well, const bson_error_t *error)
{
    if (well)
        printf("%s ok\n", name);
    else
        printf("%s FAILED %s\n", name, error->message);
    failed |= !well;
}

static bool insert(mongoc_collection_t *items, bson_error_t *error)
{
    bson_t *made[1000];
    for (int i = 0; i < 1000; i++)
        made[i] = BCON_NEW("_id", BCON_INT32(i), "a", BCON_INT32(i));
    bool well = mongoc_collection_insert_many(items, (const bson_t **)made, 1000, NULL, NULL, error);
    for (int i = 0; i < 1000; i++)
        bson_destroy(made[i]);
    return well;
}

static bool find(mongoc_collection_t *items, bson_error_t *error)
{
    bson_t *filter = BCON_NEW("a", "{", "$lt", BCON_INT32(10), "}");
    bson_t *options = BCON_NEW("sort", "{", "a", BCON_INT32(-1), "}", "limit", BCON_INT64(7), "batchSize", BCON_INT64(2));
    mongoc_cursor_t *cursor = mongoc_collection_find_with_opts(items, filter, options, NULL);
    const bson_t *document;
    int count = 0;
    while (mongoc_cursor_next(cursor, &document))
        count++;
    bool well = !mongoc_cursor_error(cursor, error) && count == 7;
    mongoc_cursor_destroy(cursor);
    bson_destroy(options);
    bson_destroy(filter);
    return well;
}

/* Tells whether a call went well, and this field of its answer is 1. */
static bool is_one(bool well, bson_t *answer, const char *name, bson_error_t *error)
{
    bson_iter_t field;
    bool one = bson_iter_init_find(&field, answer, name) && BSON_ITER_HOLDS_INT(&field) && bson_iter_as_int64(&field) == 1;
    bson_destroy(answer);
    if (well && !one)
        bson_set_error(error, 0, 0, "%s isn't 1", name);
    return well && one;
}

int main(int argc, char **argv)
{
    if (argc != 4)
        return 2;
    mongoc_init();
    mongoc_log_set_handler(logged, NULL);
    bson_error_t error = {0};
    mongoc_uri_t *uri = mongoc_uri_new(argv[2]);
    mongoc_apm_callbacks_t *log = callbacks();
    mongoc_client_pool_t *pool = strcmp(argv[1], "pooled") == 0 ? mongoc_client_pool_new(uri) : NULL;
    if (pool)
        mongoc_client_pool_set_apm_callbacks(pool, log, NULL);
    mongoc_client_t *client = pool ? mongoc_client_pool_pop(pool) : mongoc_client_new_from_uri(uri);
    if (!pool)
        mongoc_client_set_apm_callbacks(client, log, NULL);
    mongoc_collection_t *items = mongoc_client_get_collection(client, "shop", argv[3]);
    bson_t *ping = BCON_NEW("ping", BCON_INT32(1));
    bson_t *two = BCON_NEW("_id", BCON_INT32(2));
    bson_t *three = BCON_NEW("_id", BCON_INT32(3));
    bson_t *set = BCON_NEW("$set", "{", "a", BCON_INT32(-1), "}");
    bson_t all = BSON_INITIALIZER;
    step("ping", mongoc_client_command_simple(client, "admin", ping, NULL, NULL, &error), &error);
    step("insert", insert(items, &error), &error);
    step("find", find(items, &error), &error);
    bson_t answer;
    bool well = mongoc_collection_update_one(items, two, set, NULL, &answer, &error);
    step("update", is_one(well, &answer, "modifiedCount", &error), &error);
    well = mongoc_collection_delete_one(items, three, NULL, &answer, &error);
    step("delete", is_one(well, &answer, "deletedCount", &error), &error);
    step("count", mongoc_collection_count_documents(items, &all, NULL, NULL, NULL, &error) == 999, &error);
    step("drop", mongoc_collection_drop(items, &error), &error);
    sleep(11);
    step("ping_again", mongoc_client_command_simple(client, "admin", ping, NULL, NULL, &error), &error);
    printf("log: %d heartbeats\n", heartbeats);
    step("log", faults == 0 && heartbeats > 0, &error);
    bson_destroy(set);
    bson_destroy(three);
    bson_destroy(two);
    bson_destroy(ping);
    mongoc_collection_destroy(items);
    if (pool) {
        mongoc_client_pool_push(pool, client);
        mongoc_client_pool_destroy(pool);
    } else {
        mongoc_client_destroy(client);
    }
    mongoc_apm_callbacks_destroy(log);
    mongoc_uri_destroy(uri);
    mongoc_cleanup();
    return failed;
}
