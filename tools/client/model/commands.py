"""Commands: how the sections of a message become a reply."""
from model.catalog import create, create_indexes, drop, drop_indexes, view_stats
from model.fields import FIELDS, IGNORED, check_fields
from model.namespaces import database_name, namespace
from model.reads import aggregate, explain, find, get_more, kill_cursors
from model.refusals import COMMAND_NOT_FOUND, FAILED_TO_PARSE, INVALID_BSON, OK, Refusal, refused
from model.values import ARRAY, BOOLEAN, BsonFault, DOCUMENT, INT32, read_document
from model.writes import NoSuchCut, WRITES, write


def execute(store, body, cut=None, session=None):
    """Carries out a command without lists next to its body, and returns its reply. A write may be cut as if memory ran out: `cut`
    says at which statement, and after how many of its changes."""
    return answer_to(store, session, [(None, [body])], cut)


def answer_to(store, session, sections, cut=None):
    """Carries out the command in a message's sections, and returns its reply."""
    try:
        read = {name: [read_document(one) for one in documents] for name, documents in sections}
        (body,) = read.pop(None)
        return carry_out(store, session, body, read, cut)
    except BsonFault as fault:
        return refused(INVALID_BSON, b"InvalidBSON: " + fault.args[0])
    except Refusal as fault:
        return refused(fault.code)


def carry_out(store, session, body, lists, cut):
    name = body[0][0] if body else b""
    if name not in COMMANDS or name == b"explain" and not is_of_find(body[0][1]):
        raise Refusal(COMMAND_NOT_FOUND)
    database, fields = database_name(body), dict(body)
    if name in FIELDS:
        check_fields(body, FIELDS[name], IGNORED | {b"$db"})
        put_lists(fields, lists, LISTS.get(name))
        if any(needed not in fields for needed in needed_by(name, fields)):
            raise Refusal(FAILED_TO_PARSE)
    if name in WRITES:
        return write(store, namespace(database, fields[name][1]), name, fields, cut)
    if cut is not None:
        raise NoSuchCut
    if name in OF_SESSIONS:
        return COMMANDS[name](store, session, database, fields)
    return COMMANDS[name](store, database, fields)


def is_of_find(value):
    """Whether a document begins with `find`."""
    kind, held = value
    return kind == DOCUMENT and bool(held) and held[0][0] == b"find"


def put_lists(fields, lists, wanted):
    """Puts the documents next to a body under the name of the command's list, which may not be in the body too."""
    for name, documents in lists.items():
        if name != wanted or name in fields:
            raise Refusal(FAILED_TO_PARSE)
        fields[name] = ARRAY, [(DOCUMENT, one) for one in documents]


def needed_by(name, fields):
    if name == b"create":
        return (b"viewOn", b"pipeline") if b"viewOn" in fields or b"pipeline" in fields else ()
    others = {b"aggregate": [b"pipeline"], b"createIndexes": [b"indexes"], b"dropIndexes": [b"index"],
              b"getMore": [b"collection"], b"killCursors": [b"cursors"]}
    return [LISTS[name]] if name in LISTS else others.get(name, [])


def ping(store, database, fields):
    return [OK]


def hello(store, database, fields):
    return [(b"isWritablePrimary", (BOOLEAN, True)), (b"maxBsonObjectSize", (INT32, 16_777_216)),
            (b"maxMessageSizeBytes", (INT32, 48_000_000)), (b"maxWriteBatchSize", (INT32, 100_000)),
            (b"minWireVersion", (INT32, 0)), (b"maxWireVersion", (INT32, 17)), (b"readOnly", (BOOLEAN, False)), OK]


COMMANDS = {b"ping": ping, b"hello": hello, b"find": find, b"aggregate": aggregate, b"create": create, b"drop": drop,
            b"createIndexes": create_indexes, b"dropIndexes": drop_indexes, b"explain": explain, b"getMore": get_more,
            b"killCursors": kill_cursors, b"viewStats": view_stats, **dict.fromkeys(WRITES)}
OF_SESSIONS = {b"find", b"aggregate", b"getMore", b"killCursors"}  # their replies depend on the session
# The lists that may be next to a body.
LISTS = {name: lists for name, (lists, _) in WRITES.items()}
