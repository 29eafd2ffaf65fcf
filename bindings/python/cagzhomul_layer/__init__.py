"""The layer's stores: the interface. Each adapter is a module of its own: `memory`, `sqlite`, `postgres`, `etcd`."""

from .store import BadAnswer, Draft, Found, Page, Pair, Range, Refused, Store, StoreError, TooLarge, Unknown, Unreachable, checked, page_of, values_of

__all__ = [
    "BadAnswer", "Draft", "Found", "Page", "Pair", "Range", "Refused", "Store", "StoreError", "TooLarge", "Unknown", "Unreachable", "checked", "page_of",
    "values_of",
]
