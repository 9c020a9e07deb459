"""02, Job 7: a page of keys of one collection, looked up together."""

MOST_KEYS = 64


def page(projection, collection, keys, room):
    """(number, None) of a refusal, or (0, for each key its position in the collection and its value, or None)."""
    if len(keys) > MOST_KEYS:
        return 16, None
    if len(keys) > room:
        return 14, None
    found = {key: (position, value) for position, (key, value) in enumerate(projection.entries(collection))}
    return 0, [found.get(key) for key in keys]
