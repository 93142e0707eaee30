/* What a driver does, with libmongoc: it is told the server API version 1, so it opens with OP_MSG. It pings, inserts three
 * documents, inserts one without acknowledgement, finds all four in batches of two, and drops them. It writes what it was
 * answered.
 *
 *     driver URI
 *
 * The status is 1 where an answer is an error.
 */
#include <mongoc/mongoc.h>
#include <stdio.h>

static int failed;

static void fail(const char *what, const bson_error_t *error)
{
    printf("%s: error %u %s\n", what, error->code, error->message);
    failed = 1;
}

static void show(const char *what, const bson_t *document)
{
    char *text = bson_as_canonical_extended_json(document, NULL);
    printf("%s: %s\n", what, text);
    bson_free(text);
}

static void ping(mongoc_client_t *client)
{
    bson_t *command = BCON_NEW("ping", BCON_INT32(1));
    bson_t reply;
    bson_error_t error;
    if (mongoc_client_command_simple(client, "admin", command, NULL, &reply, &error))
        show("ping", &reply);
    else
        fail("ping", &error);
    bson_destroy(&reply);
    bson_destroy(command);
}

static void insert(mongoc_collection_t *collection)
{
    const bson_t *documents[] = {
        BCON_NEW("_id", BCON_INT32(1), "name", BCON_UTF8("one")),
        BCON_NEW("_id", BCON_INT32(2), "name", BCON_UTF8("two")),
        BCON_NEW("_id", BCON_INT32(3), "name", BCON_UTF8("three")),
    };
    bson_t reply;
    bson_error_t error;
    if (mongoc_collection_insert_many(collection, documents, 3, NULL, &reply, &error))
        show("insert", &reply);
    else
        fail("insert", &error);
    bson_destroy(&reply);
    for (int i = 0; i < 3; i++)
        bson_destroy((bson_t *) documents[i]);
}

static void insert_unacknowledged(mongoc_collection_t *collection)
{
    bson_t *document = BCON_NEW("_id", BCON_INT32(4), "name", BCON_UTF8("four"));
    bson_t *options = bson_new();
    mongoc_write_concern_t *concern = mongoc_write_concern_new();
    bson_error_t error;
    mongoc_write_concern_set_w(concern, MONGOC_WRITE_CONCERN_W_UNACKNOWLEDGED);
    mongoc_write_concern_append(concern, options);
    if (mongoc_collection_insert_one(collection, document, options, NULL, &error))
        puts("insert: unacknowledged");
    else
        fail("insert", &error);
    mongoc_write_concern_destroy(concern);
    bson_destroy(options);
    bson_destroy(document);
}

static void find(mongoc_collection_t *collection)
{
    bson_t *filter = bson_new();
    bson_t *options = BCON_NEW("batchSize", BCON_INT32(2));
    mongoc_cursor_t *cursor = mongoc_collection_find_with_opts(collection, filter, options, NULL);
    const bson_t *document;
    bson_error_t error;
    while (mongoc_cursor_next(cursor, &document))
        show("found", document);
    if (mongoc_cursor_error(cursor, &error))
        fail("find", &error);
    mongoc_cursor_destroy(cursor);
    bson_destroy(options);
    bson_destroy(filter);
}

int main(int argc, char **argv)
{
    bson_error_t error;
    mongoc_client_t *client;
    mongoc_server_api_t *api;
    mongoc_collection_t *collection;
    if (argc != 2) {
        fputs("driver URI\n", stderr);
        return 2;
    }
    mongoc_init();
    client = mongoc_client_new(argv[1]);
    api = mongoc_server_api_new(MONGOC_SERVER_API_V1);
    if (client == NULL || !mongoc_client_set_server_api(client, api, &error)) {
        fputs("driver: no client of this URI\n", stderr);
        return 2;
    }
    collection = mongoc_client_get_collection(client, "test", "numbers");
    ping(client);
    insert(collection);
    insert_unacknowledged(collection);
    find(collection);
    if (mongoc_collection_drop(collection, &error))
        puts("drop: done");
    else
        fail("drop", &error);
    mongoc_collection_destroy(collection);
    mongoc_server_api_destroy(api);
    mongoc_client_destroy(client);
    mongoc_cleanup();
    return failed;
}
