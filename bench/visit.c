/* Visits each value of the documents in a file, one after the other, as libbson does it, and prints how many documents there
 * are. bench/serving.py compares it with `docd check`. It checks each string and each name, at any depth.
 *
 *     cc -O2 -o visit bench/visit.c $(pkg-config --cflags --libs libbson-1.0)
 */
#include <bson/bson.h>
#include <stdio.h>

static bool enter(const bson_iter_t *at, const char *name, const bson_t *inner, void *visitor);

static bool pass_text(const bson_iter_t *at, const char *name, size_t length, const char *text, void *visitor) {
    (void) at, (void) name, (void) length, (void) text, (void) visitor;
    return false;
}

static const bson_visitor_t VISITOR = {.visit_utf8 = pass_text, .visit_document = enter, .visit_array = enter};

static bool enter(const bson_iter_t *at, const char *name, const bson_t *inner, void *visitor) {
    bson_iter_t within;
    (void) at, (void) name;
    return !bson_iter_init(&within, inner) || bson_iter_visit_all(&within, &VISITOR, visitor) || within.err_off;
}

int main(int count, char **words) {
    bson_error_t error;
    bson_reader_t *reader = count == 2 ? bson_reader_new_from_file(words[1], &error) : NULL;
    if (!reader) return 2;
    const bson_t *document;
    bool is_end = false;
    long documents = 0;
    while ((document = bson_reader_read(reader, &is_end))) {
        if (enter(NULL, NULL, document, NULL)) return 1;
        documents++;
    }
    bson_reader_destroy(reader);
    printf("ok %ld\n", documents);
    return is_end ? 0 : 1;
}
