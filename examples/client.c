/* A client of docd by libmongoc, the C driver of MongoDB (Debian: apt-get install libmongoc-dev). It keeps what a small shop
 * has: it inserts orders, finds some in the order of a sort by a cursor, changes one, makes an index and a view, and reads
 * the view. What was there under these names is dropped first, so it can be run again.
 *
 *     cc -o client examples/client.c $(pkg-config --cflags --libs libmongoc-1.0)
 *     ./client 27017
 *
 * docd accepts only OP_MSG. Version 1 of the Stable API makes the driver's first message an OP_MSG too. The direct connection may be
 * left out. A client by itself has one connection, so it works under `docd serve` as well as under `docd listen`; examples/pool.c
 * has a pool of clients.
 */
#include <mongoc/mongoc.h>
#include <stdio.h>
#include <stdlib.h>

#define NAMESPACE_NOT_FOUND 26

static void stop(const char *what, const bson_error_t *error) {
    fprintf(stderr, "client: %s: %s\n", what, error->message);
    exit(1);
}

static mongoc_client_t *connected(const char *port) {
    bson_error_t error;
    char *text = bson_strdup_printf("mongodb://127.0.0.1:%s/?directConnection=true", port);
    mongoc_uri_t *uri = mongoc_uri_new_with_error(text, &error);
    if (!uri) stop("connect", &error);
    mongoc_client_t *client = mongoc_client_new_from_uri(uri);
    mongoc_server_api_t *api = mongoc_server_api_new(MONGOC_SERVER_API_V1);
    if (!mongoc_client_set_server_api(client, api, &error)) stop("connect", &error);
    mongoc_server_api_destroy(api);
    mongoc_uri_destroy(uri);
    bson_free(text);
    return client;
}

/* Carries a command out that isn't one of the driver's own calls. */
static void carry_out(mongoc_client_t *client, const char *what, bson_t *command) {
    bson_error_t error;
    if (!mongoc_client_command_simple(client, "stall", command, NULL, NULL, &error)) stop(what, &error);
    bson_destroy(command);
}

static void drop(mongoc_client_t *client, const char *name) {
    bson_error_t error;
    bson_t *command = BCON_NEW("drop", BCON_UTF8(name));
    bool is_dropped = mongoc_client_command_simple(client, "stall", command, NULL, NULL, &error);
    if (!is_dropped && error.code != NAMESPACE_NOT_FOUND) stop("drop", &error);
    bson_destroy(command);
}

static void insert_orders(mongoc_collection_t *orders) {
    bson_t *made[] = {
        BCON_NEW("_id", BCON_INT32(1), "customer", BCON_UTF8("Ada"), "pence", BCON_INT32(1250),
                 "things", "[", BCON_UTF8("tea"), BCON_UTF8("cups"), "]"),
        BCON_NEW("_id", BCON_INT32(2), "customer", BCON_UTF8("Ben"), "pence", BCON_INT32(480),
                 "things", "[", BCON_UTF8("soap"), "]"),
        BCON_NEW("_id", BCON_INT32(3), "customer", BCON_UTF8("Ada"), "pence", BCON_INT32(399),
                 "things", "[", BCON_UTF8("tea"), "]"),
        BCON_NEW("_id", BCON_INT32(4), "customer", BCON_UTF8("Cleo"), "pence", BCON_INT32(2100),
                 "things", "[", BCON_UTF8("lamp"), "]"),
    };
    bson_error_t error;
    if (!mongoc_collection_insert_many(orders, (const bson_t **) made, 4, NULL, NULL, &error)) stop("insert", &error);
    for (int at = 0; at < 4; at++) bson_destroy(made[at]);
}

/* Prints the documents that match, in batches of two: each batch after the first is a getMore. */
static void print_found(mongoc_collection_t *collection, const char *head, bson_t *filter, bson_t *options) {
    mongoc_cursor_t *cursor = mongoc_collection_find_with_opts(collection, filter, options, NULL);
    const bson_t *found;
    bson_error_t error;
    printf("%s\n", head);
    while (mongoc_cursor_next(cursor, &found)) {
        char *text = bson_as_relaxed_extended_json(found, NULL);
        printf("  %s\n", text);
        bson_free(text);
    }
    if (mongoc_cursor_error(cursor, &error)) stop("find", &error);
    mongoc_cursor_destroy(cursor);
    bson_destroy(filter);
    if (options) bson_destroy(options);
}

static void change_order(mongoc_collection_t *orders) {
    bson_t *filter = BCON_NEW("_id", BCON_INT32(2));
    bson_t *update = BCON_NEW("$inc", "{", "pence", BCON_INT32(20), "}", "$push", "{", "things", BCON_UTF8("salt"), "}");
    bson_error_t error;
    if (!mongoc_collection_update_one(orders, filter, update, NULL, NULL, &error)) stop("update", &error);
    bson_destroy(filter);
    bson_destroy(update);
}

static bson_t *index_on_customer(void) {
    return BCON_NEW("createIndexes", BCON_UTF8("orders"), "indexes", "[",
                    "{", "key", "{", "customer", BCON_INT32(1), "}", "name", BCON_UTF8("customer_1"), "}", "]");
}

static bson_t *view_of_sums(void) {
    return BCON_NEW("create", BCON_UTF8("spent"), "viewOn", BCON_UTF8("orders"), "pipeline", "[",
                    "{", "$group", "{", "_id", BCON_UTF8("$customer"), "orders", "{", "$sum", BCON_INT32(1), "}",
                    "pence", "{", "$sum", BCON_UTF8("$pence"), "}", "}", "}", "]");
}

int main(int count, char **words) {
    if (count != 2) {
        fprintf(stderr, "usage: client PORT\n");
        return 2;
    }
    mongoc_init();
    mongoc_client_t *client = connected(words[1]);
    mongoc_collection_t *orders = mongoc_client_get_collection(client, "stall", "orders");
    mongoc_collection_t *spent = mongoc_client_get_collection(client, "stall", "spent");
    drop(client, "spent");
    drop(client, "orders");
    insert_orders(orders);
    carry_out(client, "create the index", index_on_customer());
    carry_out(client, "create the view", view_of_sums());
    print_found(orders, "orders of 400 pence and more, the dearest first:",
                BCON_NEW("pence", "{", "$gte", BCON_INT32(400), "}"),
                BCON_NEW("sort", "{", "pence", BCON_INT32(-1), "}", "batchSize", BCON_INT32(2)));
    print_found(orders, "Ada's orders:", BCON_NEW("customer", BCON_UTF8("Ada")), NULL);
    change_order(orders);
    print_found(spent, "what each has spent, by the view:", bson_new(), NULL);
    mongoc_collection_destroy(spent);
    mongoc_collection_destroy(orders);
    mongoc_client_destroy(client);
    mongoc_cleanup();
    return 0;
}
