"""Unique indexes: no two documents share a key of such an index.

The keys of a document are those of its leaves under the index's path: a whole array is a leaf, and each of its elements too. What
is missing has the key of null. Nothing is kept: the documents are read each time.
"""
from model.paths import leaf_keys
from model.refusals import DUPLICATE_KEY, Refusal


def check_indexes(indexes, documents):
    """Refuses indexes if two of the documents share a key under the path of a unique one."""
    if not all(are_apart(path, documents) for path in unique_paths(indexes)):
        raise Refusal(DUPLICATE_KEY)


def are_apart(path, documents):
    """Whether no two of the documents share a key under a path."""
    taken = set()
    for document in documents:
        keys = leaf_keys(document, path)
        if keys & taken:
            return False
        taken |= keys
    return True


def check_changes(collection, changes):
    """Refuses changes of a collection if one of them, made after those before it, would put a key of a unique index under a
    second `_id`."""
    for path in unique_paths(collection.indexes):
        keys = {wanted: leaf_keys(document, path) for wanted, document in zip(collection.keys, collection.documents)}
        for wanted, document in changes:
            keys[wanted] = set() if document is None else leaf_keys(document, path)
            if any(keys[wanted] & taken for other, taken in keys.items() if other != wanted):
                raise Refusal(DUPLICATE_KEY)


def unique_paths(indexes):
    return [index.path for index in indexes if index.is_unique]
