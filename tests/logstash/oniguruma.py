"""Oniguruma itself, by Debian's libonig5: what a regular expression in Ruby's syntax finds in a line."""
import ctypes
import ctypes.util


class Region(ctypes.Structure):
    _fields_ = [("allocated", ctypes.c_int), ("count", ctypes.c_int), ("begins", ctypes.POINTER(ctypes.c_int)),
                ("ends", ctypes.POINTER(ctypes.c_int)), ("history", ctypes.c_void_p)]


class ErrorInfo(ctypes.Structure):
    _fields_ = [("encoding", ctypes.c_void_p), ("begin", ctypes.c_void_p), ("end", ctypes.c_void_p)]


class Refused(Exception):
    """Oniguruma doesn't take a regular expression."""


def load():
    """The library, or None if it isn't installed."""
    for name in (ctypes.util.find_library("onig"), "libonig.so.5"):
        try:
            return ctypes.CDLL(name) if name else None
        except OSError:
            pass
    return None


class Oniguruma:
    def __init__(self, library):
        self.library = library
        self.encoding = ctypes.addressof(ctypes.c_char.in_dll(library, "OnigEncodingUTF8"))
        self.syntax = ctypes.addressof(ctypes.c_char.in_dll(library, "OnigSyntaxRuby"))
        library.onig_region_new.restype = ctypes.POINTER(Region)
        library.onig_region_free.argtypes = [ctypes.POINTER(Region), ctypes.c_int]
        library.onig_free.argtypes = [ctypes.c_void_p]
        library.onig_search.argtypes = [ctypes.c_void_p] + [ctypes.c_void_p] * 4 + [ctypes.POINTER(Region), ctypes.c_uint]
        library.onig_name_to_backref_number.argtypes = [ctypes.c_void_p, ctypes.c_void_p, ctypes.c_void_p,
                                                        ctypes.POINTER(Region)]
        library.onig_set_retry_limit_in_match.argtypes = [ctypes.c_ulong]
        encodings = (ctypes.c_void_p * 1)(self.encoding)
        library.onig_initialize(encodings, 1)
        library.onig_set_retry_limit_in_match(ctypes.c_ulong(1_000_000))

    def new(self, pattern):
        return Regex(self, pattern)


class Regex:
    """A regular expression, which Oniguruma keeps until the end of the run."""

    def __init__(self, owner, pattern):
        self.library = owner.library
        self.handle = ctypes.c_void_p()
        data = pattern.encode()
        self.pattern = ctypes.create_string_buffer(data, len(data) + 1)
        start = ctypes.addressof(self.pattern)
        error = ErrorInfo()
        self.library.onig_new.argtypes = [ctypes.c_void_p, ctypes.c_void_p, ctypes.c_void_p, ctypes.c_uint, ctypes.c_void_p,
                                          ctypes.c_void_p, ctypes.c_void_p]
        status = self.library.onig_new(ctypes.byref(self.handle), start, start + len(data), 0, owner.encoding, owner.syntax,
                                       ctypes.byref(error))
        if status != 0:
            raise Refused(status)

    def search(self, line, names=()):
        """None if nothing is found, or the span of the whole match and of each named group (None if it has none)."""
        data = line.encode()
        buffer = ctypes.create_string_buffer(data, len(data) + 1)
        start = ctypes.addressof(buffer)
        end = start + len(data)
        region = self.library.onig_region_new()
        try:
            found = self.library.onig_search(self.handle, start, end, start, end, region, 0)
            if found < -1:
                raise Refused(found)
            if found == -1:
                return None
            spans = [self.span(region, 0)]
            for name in names:
                bytes_of = name.encode()
                held = ctypes.create_string_buffer(bytes_of, len(bytes_of) + 1)
                at = ctypes.addressof(held)
                number = self.library.onig_name_to_backref_number(self.handle, at, at + len(bytes_of), region)
                spans.append(self.span(region, number) if number > 0 else None)
            return spans
        finally:
            self.library.onig_region_free(region, 1)

    def span(self, region, number):
        begin = region.contents.begins[number]
        return (begin, region.contents.ends[number]) if begin >= 0 else None
