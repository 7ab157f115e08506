"""Why a command or a statement is refused, and the reply to a refused command."""
from model.values import INT32, TEXT

BAD_VALUE, FAILED_TO_PARSE, TYPE_MISMATCH, INVALID_BSON, NAMESPACE_NOT_FOUND, PATH_NOT_VIABLE = 2, 9, 14, 22, 26, 28
INDEX_NOT_FOUND, CONFLICT, CURSOR_NOT_FOUND, NAMESPACE_EXISTS, COMMAND_NOT_FOUND = 27, 40, 43, 48, 59
IMMUTABLE_FIELD, DUPLICATE_KEY = 66, 11000
WANT_OF_MEMORY, TOO_LARGE, ON_VIEW, LIMIT_REACHED, READ_BY_VIEW = 900, 901, 902, 903, 904
NAMES = {
    BAD_VALUE: b"BadValue", FAILED_TO_PARSE: b"FailedToParse", TYPE_MISMATCH: b"TypeMismatch", INVALID_BSON: b"InvalidBSON",
    NAMESPACE_NOT_FOUND: b"NamespaceNotFound", INDEX_NOT_FOUND: b"IndexNotFound", CURSOR_NOT_FOUND: b"CursorNotFound",
    PATH_NOT_VIABLE: b"PathNotViable", CONFLICT: b"ConflictingUpdateOperators",
    NAMESPACE_EXISTS: b"NamespaceExists", COMMAND_NOT_FOUND: b"CommandNotFound", IMMUTABLE_FIELD: b"ImmutableField",
    DUPLICATE_KEY: b"DuplicateKey", WANT_OF_MEMORY: b"WantOfMemory", TOO_LARGE: b"TooLarge", ON_VIEW: b"OnView",
    LIMIT_REACHED: b"LimitReached", READ_BY_VIEW: b"ReadByView",
}

# The end of a reply that is no refusal.
OK = b"ok", (INT32, 1)


class Refusal(Exception):
    """A command or a statement is refused, with this code."""

    def __init__(self, code):
        super().__init__(code)
        self.code = code


def refused(code, text=None):
    """The reply to a refused command."""
    return [(b"ok", (INT32, 0)), (b"errmsg", (TEXT, text or NAMES[code])), (b"code", (INT32, code)),
            (b"codeName", (TEXT, NAMES[code]))]
