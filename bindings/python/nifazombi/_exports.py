# Made by `tools/checks/texts --write` of the sources of crates/nifazombi_c.
from ctypes import POINTER, Structure, c_bool, c_size_t, c_uint8, c_uint32, c_uint64, c_void_p

ERROR_SHORT = 1
ERROR_MARK = 2
ERROR_VERSION = 3
ERROR_PART = 4
ERROR_ROW = 5
ERROR_CELL = 6
ERROR_FULL = 7
ERROR_OUT_OF_ORDER = 8
ERROR_SPAN = 9


class Ipv4Row(Structure):
    _fields_ = [("first", c_uint32), ("bits", c_uint32), ("link", c_uint32), ("value", c_uint32)]


class Ipv4Change(Structure):
    _fields_ = [("row", Ipv4Row), ("removes", c_uint32)]


class Ipv6Row(Structure):
    _fields_ = [("first", c_uint8 * 16), ("bits", c_uint32), ("link", c_uint32), ("value", c_uint64)]


class Ipv6Change(Structure):
    _fields_ = [("row", Ipv6Row), ("removes", c_uint32)]


class TextsPair(Structure):
    _fields_ = [("key", c_void_p), ("key_len", c_size_t), ("value", c_uint64)]


class TextsPlace(Structure):
    _fields_ = [("first", c_size_t), ("len", c_size_t), ("value", c_uint64)]


class Span(Structure):
    _fields_ = [("first", c_size_t), ("count", c_size_t)]


# The name of each export, its result and its parameters.
EXPORTS = [
    ("nifazombi_ipv4_check", c_uint32, [c_void_p, c_size_t, POINTER(c_size_t)]),
    ("nifazombi_ipv4_len", c_size_t, [c_void_p, c_size_t]),
    ("nifazombi_ipv4_row_at", c_bool, [c_void_p, c_size_t, c_size_t, POINTER(Ipv4Row)]),
    ("nifazombi_ipv4_longest_match", c_size_t, [c_void_p, c_size_t, c_uint32]),
    ("nifazombi_ipv4_longest_matches", c_size_t, [c_void_p, c_size_t, c_void_p, c_size_t, c_void_p, c_size_t]),
    ("nifazombi_ipv4_longest_values", c_size_t, [c_void_p, c_size_t, c_void_p, c_size_t, c_void_p, c_size_t, c_void_p, c_size_t]),
    ("nifazombi_ipv4_longest_around", c_size_t, [c_void_p, c_size_t, c_uint32, c_uint32]),
    ("nifazombi_ipv4_get", c_size_t, [c_void_p, c_size_t, c_uint32, c_uint32]),
    ("nifazombi_ipv4_below", None, [c_void_p, c_size_t, c_uint32, c_uint32, POINTER(Span)]),
    ("nifazombi_ipv4_above", c_size_t, [c_void_p, c_size_t, c_size_t]),
    ("nifazombi_ipv4_image_len", c_size_t, [c_size_t, c_size_t]),
    ("nifazombi_ipv4_write", c_uint32, [c_void_p, c_size_t, c_void_p, c_size_t, c_void_p, c_size_t, POINTER(c_size_t)]),
    ("nifazombi_ipv4_merge_len", c_size_t, [c_void_p, c_size_t, c_size_t, c_size_t]),
    ("nifazombi_ipv4_merge", c_uint32, [c_void_p, c_size_t, c_void_p, c_size_t, c_void_p, c_size_t, c_void_p, c_size_t, POINTER(c_size_t)]),
    ("nifazombi_ipv6_check", c_uint32, [c_void_p, c_size_t, POINTER(c_size_t)]),
    ("nifazombi_ipv6_len", c_size_t, [c_void_p, c_size_t]),
    ("nifazombi_ipv6_row_at", c_bool, [c_void_p, c_size_t, c_size_t, POINTER(Ipv6Row)]),
    ("nifazombi_ipv6_longest_match", c_size_t, [c_void_p, c_size_t, c_void_p]),
    ("nifazombi_ipv6_longest_matches", c_size_t, [c_void_p, c_size_t, c_void_p, c_size_t, c_void_p, c_size_t]),
    ("nifazombi_ipv6_longest_values", c_size_t, [c_void_p, c_size_t, c_void_p, c_size_t, c_void_p, c_size_t, c_void_p, c_size_t]),
    ("nifazombi_ipv6_longest_around", c_size_t, [c_void_p, c_size_t, c_void_p, c_uint32]),
    ("nifazombi_ipv6_get", c_size_t, [c_void_p, c_size_t, c_void_p, c_uint32]),
    ("nifazombi_ipv6_below", None, [c_void_p, c_size_t, c_void_p, c_uint32, POINTER(Span)]),
    ("nifazombi_ipv6_above", c_size_t, [c_void_p, c_size_t, c_size_t]),
    ("nifazombi_ipv6_image_len", c_size_t, [c_size_t, c_size_t]),
    ("nifazombi_ipv6_write", c_uint32, [c_void_p, c_size_t, c_void_p, c_size_t, c_void_p, c_size_t, POINTER(c_size_t)]),
    ("nifazombi_ipv6_merge_len", c_size_t, [c_void_p, c_size_t, c_size_t, c_size_t]),
    ("nifazombi_ipv6_merge", c_uint32, [c_void_p, c_size_t, c_void_p, c_size_t, c_void_p, c_size_t, c_void_p, c_size_t, POINTER(c_size_t)]),
    ("nifazombi_payload", c_bool, [c_void_p, c_size_t, POINTER(Span)]),
    ("nifazombi_texts_check", c_uint32, [c_void_p, c_size_t, POINTER(c_size_t)]),
    ("nifazombi_texts_len", c_size_t, [c_void_p, c_size_t]),
    ("nifazombi_texts_pair_at", c_bool, [c_void_p, c_size_t, c_size_t, POINTER(TextsPlace)]),
    ("nifazombi_texts_get", c_size_t, [c_void_p, c_size_t, c_void_p, c_size_t]),
    ("nifazombi_texts_nearest", c_size_t, [c_void_p, c_size_t, c_void_p, c_size_t]),
    ("nifazombi_texts_above", c_size_t, [c_void_p, c_size_t, c_size_t]),
    ("nifazombi_texts_prefixes", c_size_t, [c_void_p, c_size_t, c_void_p, c_size_t, c_void_p, c_size_t]),
    ("nifazombi_texts_rank", c_size_t, [c_void_p, c_size_t, c_void_p, c_size_t]),
    ("nifazombi_texts_below", None, [c_void_p, c_size_t, c_void_p, c_size_t, POINTER(Span)]),
    ("nifazombi_texts_between", None, [c_void_p, c_size_t, c_void_p, c_size_t, c_void_p, c_size_t, POINTER(Span)]),
    ("nifazombi_texts_image_len", c_size_t, [c_void_p, c_size_t, c_size_t]),
    ("nifazombi_texts_write", c_uint32, [c_void_p, c_size_t, c_void_p, c_size_t, c_void_p, c_size_t, POINTER(c_size_t)]),
]
