"""The names of databases and of what is in them."""
from model.paths import field_of
from model.pipelines import is_collection_name
from model.refusals import BAD_VALUE, FAILED_TO_PARSE, Refusal, TYPE_MISMATCH
from model.values import TEXT

LONGEST_NAMESPACE = 120


def database_name(body):
    value = field_of(body, b"$db")
    if value is None:
        raise Refusal(FAILED_TO_PARSE)
    kind, name = value
    if kind != TEXT:
        raise Refusal(TYPE_MISMATCH)
    if not name or b"." in name or b"\0" in name:
        raise Refusal(BAD_VALUE)
    return name


def joined(database, name):
    return database + b"." + name


def namespace(database, name):
    place = joined(database, name)
    if not is_collection_name(name) or len(place) > LONGEST_NAMESPACE:
        raise Refusal(BAD_VALUE)
    return place
