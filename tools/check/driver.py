"""Connections to a docd that serves on this machine, by libmongoc, MongoDB's own driver for C (Debian: apt-get install
libmongoc-1.0-0), which Python's ctypes calls: a single connection, or those of a pool.

Documents are passed to the driver and returned by it as BSON bytes. The driver decides how it greets docd, which messages its calls
become, and which messages ask for a cursor's next rows or end the cursor. examples/client.c and examples/pool.c say why it is set
up as it is.
"""
import ctypes
import functools
from ctypes import POINTER, byref, c_bool, c_char_p, c_int, c_size_t, c_uint32, c_void_p

from extended_json import json_of, value_of
from model.values import DOCUMENT, int32, read_fields, spelling

API_OF_VERSION_ONE = 0
ONE_LOOK = b"&heartbeatFrequencyMS=86400000"  # for a pool: one check of the server a day
ALIGNMENT = 128  # of a bson_t, and its size
TOP_LEVEL = -2  # of what the driver returns: a reply has three levels above its rows


class Error(ctypes.Structure):
    """A bson_error_t."""
    _fields_ = [("domain", c_uint32), ("code", c_uint32), ("message", ctypes.c_char * 504)]


class DriverFault(ConnectionError):
    """A call of the driver failed, and not because docd refused a statement."""

    def __init__(self, error):
        super().__init__("the driver says: %s" % error.message.decode())


# The driver's calls: what each gives, and what it takes.
A_DOCUMENT = AN_OBJECT = c_void_p
CALLS = {
    "bson_new_from_data": (A_DOCUMENT, [c_char_p, c_size_t]),
    "bson_get_data": (c_void_p, [A_DOCUMENT]),
    "bson_destroy": (None, [A_DOCUMENT]),
    "mongoc_init": (None, []),
    "mongoc_uri_new_with_error": (AN_OBJECT, [c_char_p, POINTER(Error)]),
    "mongoc_uri_destroy": (None, [AN_OBJECT]),
    "mongoc_server_api_new": (AN_OBJECT, [c_int]),
    "mongoc_server_api_destroy": (None, [AN_OBJECT]),
    "mongoc_client_new_from_uri": (AN_OBJECT, [AN_OBJECT]),
    "mongoc_client_set_server_api": (c_bool, [AN_OBJECT, AN_OBJECT, POINTER(Error)]),
    "mongoc_client_get_collection": (AN_OBJECT, [AN_OBJECT, c_char_p, c_char_p]),
    "mongoc_client_command_simple": (c_bool, [AN_OBJECT, c_char_p, A_DOCUMENT, AN_OBJECT, A_DOCUMENT, POINTER(Error)]),
    "mongoc_client_destroy": (None, [AN_OBJECT]),
    "mongoc_client_pool_new": (AN_OBJECT, [AN_OBJECT]),
    "mongoc_client_pool_set_server_api": (c_bool, [AN_OBJECT, AN_OBJECT, POINTER(Error)]),
    "mongoc_client_pool_pop": (AN_OBJECT, [AN_OBJECT]),
    "mongoc_client_pool_push": (None, [AN_OBJECT, AN_OBJECT]),
    "mongoc_client_pool_destroy": (None, [AN_OBJECT]),
    "mongoc_get_version": (c_char_p, []),
    "mongoc_collection_insert_many": (c_bool, [AN_OBJECT, POINTER(A_DOCUMENT), c_size_t, A_DOCUMENT, A_DOCUMENT, POINTER(Error)]),
    "mongoc_collection_update_one": (c_bool, [AN_OBJECT, A_DOCUMENT, A_DOCUMENT, A_DOCUMENT, A_DOCUMENT, POINTER(Error)]),
    "mongoc_collection_update_many": (c_bool, [AN_OBJECT, A_DOCUMENT, A_DOCUMENT, A_DOCUMENT, A_DOCUMENT, POINTER(Error)]),
    "mongoc_collection_replace_one": (c_bool, [AN_OBJECT, A_DOCUMENT, A_DOCUMENT, A_DOCUMENT, A_DOCUMENT, POINTER(Error)]),
    "mongoc_collection_delete_one": (c_bool, [AN_OBJECT, A_DOCUMENT, A_DOCUMENT, A_DOCUMENT, POINTER(Error)]),
    "mongoc_collection_delete_many": (c_bool, [AN_OBJECT, A_DOCUMENT, A_DOCUMENT, A_DOCUMENT, POINTER(Error)]),
    "mongoc_collection_find_with_opts": (AN_OBJECT, [AN_OBJECT, A_DOCUMENT, A_DOCUMENT, AN_OBJECT]),
    "mongoc_collection_aggregate": (AN_OBJECT, [AN_OBJECT, c_int, A_DOCUMENT, A_DOCUMENT, AN_OBJECT]),
    "mongoc_collection_destroy": (None, [AN_OBJECT]),
    "mongoc_cursor_next": (c_bool, [AN_OBJECT, POINTER(A_DOCUMENT)]),
    "mongoc_cursor_error": (c_bool, [AN_OBJECT, POINTER(Error)]),
    "mongoc_cursor_destroy": (None, [AN_OBJECT]),
}


@functools.cache
def opened_library():
    """The driver. libbson's calls are found in it too, because it uses libbson."""
    library = ctypes.CDLL("libmongoc-1.0.so.0")
    for name, (gives, takes) in CALLS.items():
        call = getattr(library, name)
        call.restype, call.argtypes = gives, takes
    library.mongoc_init()
    return library


class Given:
    """Documents that are lent to the driver for a call."""

    def __init__(self, library, *held):
        self.library = library
        self.documents = [self.made(*value_of(one)) for one in held]

    def made(self, kind, fields):
        data = spelling(fields)
        return self.library.bson_new_from_data(data, len(data))

    def __enter__(self):
        return self.documents

    def __exit__(self, *_):
        for one in self.documents:
            self.library.bson_destroy(one)


class Cursor:
    """The rows of a find or an aggregate, in order, as the driver returns them."""

    def __init__(self, connection, cursor):
        self.library, self.cursor, self.opened = connection.library, cursor, connection.opened_cursors
        self.opened.add(self)

    def __iter__(self):
        return self

    def __next__(self):
        row, error = A_DOCUMENT(), Error()
        if self.library.mongoc_cursor_next(self.cursor, byref(row)):
            return json_at(self.library, row)
        if self.library.mongoc_cursor_error(self.cursor, byref(error)):
            raise DriverFault(error)
        raise StopIteration

    def close(self):
        self.library.mongoc_cursor_destroy(self.cursor)
        self.opened.remove(self)


def json_at(library, document):
    """A document of the driver, as a dict like those that json makes."""
    data = library.bson_get_data(document)
    length = int32(ctypes.string_at(data, 4), 0)
    return json_of(DOCUMENT, read_fields(ctypes.string_at(data, length), 0, length, TOP_LEVEL, is_array=False))


def set_up(making, setting_api, port, options=b""):
    """A client or a pool of the driver, for a port of this machine, with a version of the Stable API."""
    library, error = opened_library(), Error()
    uri = library.mongoc_uri_new_with_error(b"mongodb://127.0.0.1:%d/?directConnection=true%s" % (port, options), byref(error))
    api, made = library.mongoc_server_api_new(API_OF_VERSION_ONE), making(uri)
    if not setting_api(made, api, byref(error)):
        raise DriverFault(error)
    library.mongoc_server_api_destroy(api)
    library.mongoc_uri_destroy(uri)
    return made


class Client:
    """A client of the driver, which works in one database. Commands and rows are dicts, like those of served.py."""

    def __init__(self, client, database):
        self.library, self.client = opened_library(), client
        self.database, self.collections, self.opened_cursors = database.encode(), {}, set()
        room = ctypes.create_string_buffer(2 * ALIGNMENT)
        self.room, self.reply = room, ctypes.addressof(room) + -ctypes.addressof(room) % ALIGNMENT

    def collection(self, name):
        if name not in self.collections:
            self.collections[name] = self.library.mongoc_client_get_collection(self.client, self.database, name.encode())
        return self.collections[name]

    def ask(self, command):
        """The reply to a command, with docd's names. Inserts, updates and deletes are sent by the driver's own calls for them."""
        if "insert" in command:
            return self.insert(command["insert"], command["documents"], command["ordered"])
        if "update" in command:
            (entry,) = command["updates"]
            return self.update(command["update"], entry["q"], entry["u"], entry.get("multi", False))
        if "delete" in command:
            (entry,) = command["deletes"]
            return self.delete(command["delete"], entry["q"], entry["limit"] == 1)
        with Given(self.library, command) as (document,):
            return self.told(self.library.mongoc_client_command_simple, self.client, self.database, document, None)

    def insert(self, name, documents, is_ordered):
        with Given(self.library, {"ordered": is_ordered}, *documents) as (options, *given):
            listed = (A_DOCUMENT * len(given))(*given)
            told = self.told(self.library.mongoc_collection_insert_many, self.collection(name), listed, len(given), options)
        return counted(told, n="insertedCount")

    def update(self, name, query, change, is_for_all):
        is_replacement = not any(name.startswith("$") for name in change)
        call = (self.library.mongoc_collection_replace_one if is_replacement
                else self.library.mongoc_collection_update_many if is_for_all else self.library.mongoc_collection_update_one)
        with Given(self.library, query, change) as given:
            return counted(self.told(call, self.collection(name), *given, None), n="matchedCount", nModified="modifiedCount")

    def delete(self, name, query, is_for_one):
        call = self.library.mongoc_collection_delete_one if is_for_one else self.library.mongoc_collection_delete_many
        with Given(self.library, query) as given:
            return counted(self.told(call, self.collection(name), *given, None), n="deletedCount")

    def told(self, call, *operands):
        """The reply to a call. A statement that docd refuses is no fault of the call."""
        error = Error()
        is_well = call(*operands, self.reply, byref(error))
        told = json_at(self.library, self.reply)
        self.library.bson_destroy(self.reply)
        if not is_well and "writeErrors" not in told:
            raise DriverFault(error)
        return told

    def opened(self, command):
        """The rows of a find or an aggregate."""
        options = dict(command)
        if "find" in command:
            collection, query = self.collection(options.pop("find")), options.pop("filter", {})
            with Given(self.library, query, options) as given:
                return Cursor(self, self.library.mongoc_collection_find_with_opts(collection, *given, None))
        collection, pipeline = self.collection(command["aggregate"]), {"pipeline": command["pipeline"]}
        with Given(self.library, pipeline, command["cursor"]) as given:
            return Cursor(self, self.library.mongoc_collection_aggregate(collection, 0, *given, None))

    def close(self):
        """Ends the open cursors, which the driver requires before a client is closed."""
        for cursor in list(self.opened_cursors):
            cursor.close()
        for one in self.collections.values():
            self.library.mongoc_collection_destroy(one)


class Driven(Client):
    """A client by itself, with one connection."""

    def __init__(self, port, database):
        library = opened_library()
        super().__init__(set_up(library.mongoc_client_new_from_uri, library.mongoc_client_set_server_api, port), database)

    def close(self):
        super().close()
        self.library.mongoc_client_destroy(self.client)


class Pool:
    """Clients of the driver that threads share, each with a connection of its own. One more connection checks the server."""

    def __init__(self, port, options=b""):
        self.library = library = opened_library()
        self.pool = set_up(library.mongoc_client_pool_new, library.mongoc_client_pool_set_server_api, port, ONE_LOOK + options)

    def client(self, database):
        """A client that nobody else has. Waits for one if as many as are allowed are in use."""
        return Pooled(self, database)

    def close(self):
        """Ends all connections. Every client has to be closed before."""
        self.library.mongoc_client_pool_destroy(self.pool)


class Pooled(Client):
    """A client out of a pool, which returns to it when it is closed."""

    def __init__(self, pool, database):
        super().__init__(pool.library.mongoc_client_pool_pop(pool.pool), database)
        self.pool = pool.pool

    def close(self):
        super().close()
        self.library.mongoc_client_pool_push(self.pool, self.client)


def counted(told, **names):
    """A write's reply with docd's names, made from the driver's reply. `names` has the driver's name for each of docd's."""
    errors = {"writeErrors": told["writeErrors"]} if told.get("writeErrors") else {}
    return {**{of_docd: told[of_driver] for of_docd, of_driver in names.items()}, **errors, "ok": 1}
