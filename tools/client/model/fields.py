"""What the fields of a command and of a statement's entry may hold."""
from model.refusals import BAD_VALUE, FAILED_TO_PARSE, Refusal, TYPE_MISMATCH
from model.values import ARRAY, BOOLEAN, DOCUMENT, NUMBERS, TEXT

# Fields that every command takes and that change nothing.
IGNORED = set(b"lsid $readPreference $clusterTime readConcern writeConcern comment maxTimeMS apiVersion apiStrict "
              b"apiDeprecationErrors bypassDocumentValidation".split())


# Functions that refuse a value.


def of_kind(wanted):
    def check(kind, held):
        if kind != wanted:
            raise Refusal(TYPE_MISMATCH)
    return check


def documents(kind, held):
    if kind != ARRAY or any(inner != DOCUMENT for inner, _ in held):
        raise Refusal(TYPE_MISMATCH)


def natural(kind, held):
    if kind not in NUMBERS:
        raise Refusal(TYPE_MISMATCH)
    if held < 0:
        raise Refusal(BAD_VALUE)


def any_number(kind, held):
    if kind not in NUMBERS:
        raise Refusal(TYPE_MISMATCH)


def numbers(kind, held):
    of_kind(ARRAY)(kind, held)
    for one in held:
        any_number(*one)


def batch_document(kind, held):
    of_kind(DOCUMENT)(kind, held)
    check_fields(held, {b"batchSize": natural})


def find_document(kind, held):
    check_fields(held, FIELDS[b"find"], IGNORED)


def zero_or_one(kind, held):
    natural(kind, held)
    if held > 1:
        raise Refusal(BAD_VALUE)


def nothing_but_empty(kind, held):
    if (kind, held) != (DOCUMENT, []):
        raise Refusal(FAILED_TO_PARSE)


def update_document(kind, held):
    if kind != DOCUMENT:
        raise Refusal(FAILED_TO_PARSE if kind == ARRAY else TYPE_MISMATCH)


def false_alone(kind, held):
    of_kind(BOOLEAN)(kind, held)
    if held:
        raise Refusal(FAILED_TO_PARSE)


def anything(kind, held):
    pass


text, boolean, document, array = of_kind(TEXT), of_kind(BOOLEAN), of_kind(DOCUMENT), of_kind(ARRAY)
FIELDS = {
    b"insert": {b"insert": text, b"documents": documents, b"ordered": boolean},
    b"update": {b"update": text, b"updates": documents, b"ordered": boolean},
    b"delete": {b"delete": text, b"deletes": documents, b"ordered": boolean},
    b"find": {b"find": text, b"filter": document, b"sort": document, b"skip": natural, b"limit": natural,
              b"projection": nothing_but_empty, b"batchSize": natural, b"singleBatch": boolean},
    b"aggregate": {b"aggregate": text, b"pipeline": array, b"cursor": batch_document, b"allowDiskUse": anything},
    b"create": {b"create": text, b"viewOn": text, b"pipeline": array},
    b"drop": {b"drop": text},
    b"createIndexes": {b"createIndexes": text, b"indexes": documents},
    b"dropIndexes": {b"dropIndexes": text, b"index": text},
    b"explain": {b"explain": find_document, b"verbosity": anything},
    b"getMore": {b"getMore": any_number, b"collection": text, b"batchSize": natural},
    b"killCursors": {b"killCursors": text, b"cursors": numbers},
    b"viewStats": {b"viewStats": text},
}
UPDATE_ENTRY = {b"q": document, b"u": update_document, b"multi": boolean, b"upsert": false_alone}
DELETE_ENTRY = {b"q": document, b"limit": zero_or_one}


def check_fields(body, fields, ignored=frozenset()):
    """Refuses the first field, in written order, that isn't known, or that doesn't take this value."""
    for name, value in body:
        if name in ignored:
            continue
        if name not in fields:
            raise Refusal(FAILED_TO_PARSE)
        fields[name](*value)
