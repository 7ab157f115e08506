/* Four tills of a shop at work at once, by the pool of libmongoc, the C driver of MongoDB (Debian: apt-get install
 * libmongoc-dev). Each till is a thread: it takes a client out of the pool, rings up a hundred sales, and puts the client back.
 * A view sums the sales by till, and is read in the end. What was there under these names is dropped first.
 *
 *     cc -pthread -o pool examples/pool.c $(pkg-config --cflags --libs libmongoc-1.0)
 *     ./pool 27017
 *
 * It needs `docd listen`. Each client of the pool has a connection, and the pool checks the server on one more. docd accepts only
 * OP_MSG. Version 1 of the Stable API makes the first message of each connection an OP_MSG. But from its second check on, the pool
 * sends an OP_QUERY in spite of the version: the heartbeat of a day postpones this check.
 */
#include <mongoc/mongoc.h>
#include <pthread.h>
#include <stdio.h>
#include <stdlib.h>

#define TILLS 4
#define SALES 100
#define NAMESPACE_NOT_FOUND 26

typedef struct {
    mongoc_client_pool_t *pool;
    int number;
} till_t;

static void stop(const char *what, const bson_error_t *error) {
    fprintf(stderr, "pool: %s: %s\n", what, error->message);
    exit(1);
}

static mongoc_client_pool_t *opened(const char *port) {
    bson_error_t error;
    char *text = bson_strdup_printf("mongodb://127.0.0.1:%s/?directConnection=true&heartbeatFrequencyMS=86400000", port);
    mongoc_uri_t *uri = mongoc_uri_new_with_error(text, &error);
    if (!uri) stop("connect", &error);
    mongoc_client_pool_t *pool = mongoc_client_pool_new_with_error(uri, &error);
    if (!pool) stop("connect", &error);
    mongoc_server_api_t *api = mongoc_server_api_new(MONGOC_SERVER_API_V1);
    if (!mongoc_client_pool_set_server_api(pool, api, &error)) stop("connect", &error);
    mongoc_server_api_destroy(api);
    mongoc_uri_destroy(uri);
    bson_free(text);
    return pool;
}

/* Carries a command out that isn't one of the driver's own calls; it may name what isn't there. */
static void carry_out(mongoc_client_t *client, const char *what, bson_t *command) {
    bson_error_t error;
    bool is_done = mongoc_client_command_simple(client, "stall", command, NULL, NULL, &error);
    if (!is_done && error.code != NAMESPACE_NOT_FOUND) stop(what, &error);
    bson_destroy(command);
}

static void *ring_up(void *given) {
    till_t *till = given;
    mongoc_client_t *client = mongoc_client_pool_pop(till->pool);
    mongoc_collection_t *sales = mongoc_client_get_collection(client, "stall", "sales");
    for (int at = 0; at < SALES; at++) {
        bson_error_t error;
        bson_t *sale = BCON_NEW("_id", BCON_INT32(till->number * SALES + at), "till", BCON_INT32(till->number),
                                "pence", BCON_INT32(at));
        if (!mongoc_collection_insert_one(sales, sale, NULL, NULL, &error)) stop("insert", &error);
        bson_destroy(sale);
    }
    mongoc_collection_destroy(sales);
    mongoc_client_pool_push(till->pool, client);
    return NULL;
}

static bson_t *view_of_takings(void) {
    return BCON_NEW("create", BCON_UTF8("takings"), "viewOn", BCON_UTF8("sales"), "pipeline", "[",
                    "{", "$group", "{", "_id", BCON_UTF8("$till"), "sales", "{", "$sum", BCON_INT32(1), "}",
                    "pence", "{", "$sum", BCON_UTF8("$pence"), "}", "}", "}", "]");
}

static void print_takings(mongoc_client_t *client) {
    mongoc_collection_t *takings = mongoc_client_get_collection(client, "stall", "takings");
    bson_t *all = bson_new();
    mongoc_cursor_t *cursor = mongoc_collection_find_with_opts(takings, all, NULL, NULL);
    const bson_t *found;
    bson_error_t error;
    while (mongoc_cursor_next(cursor, &found)) {
        char *text = bson_as_relaxed_extended_json(found, NULL);
        printf("%s\n", text);
        bson_free(text);
    }
    if (mongoc_cursor_error(cursor, &error)) stop("find", &error);
    mongoc_cursor_destroy(cursor);
    bson_destroy(all);
    mongoc_collection_destroy(takings);
}

int main(int count, char **words) {
    if (count != 2) {
        fprintf(stderr, "usage: pool PORT\n");
        return 2;
    }
    mongoc_init();
    mongoc_client_pool_t *pool = opened(words[1]);
    mongoc_client_t *client = mongoc_client_pool_pop(pool);
    carry_out(client, "drop", BCON_NEW("drop", BCON_UTF8("takings")));
    carry_out(client, "drop", BCON_NEW("drop", BCON_UTF8("sales")));
    carry_out(client, "create the view", view_of_takings());
    pthread_t threads[TILLS];
    till_t tills[TILLS];
    for (int at = 0; at < TILLS; at++) {
        tills[at] = (till_t) {pool, at};
        if (pthread_create(&threads[at], NULL, ring_up, &tills[at])) {
            fprintf(stderr, "pool: cannot start a thread\n");
            return 1;
        }
    }
    for (int at = 0; at < TILLS; at++) pthread_join(threads[at], NULL);
    print_takings(client);
    mongoc_client_pool_push(pool, client);
    mongoc_client_pool_destroy(pool);
    mongoc_cleanup();
    return 0;
}
