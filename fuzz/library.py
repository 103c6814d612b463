"""The calls of the library for C, each with its result in the terms of reference.py."""

import ctypes
import os

from expected import expect
from reference import Refusal

OK, REFUSED, TOO_SMALL, DIFFERENT, MORE = 0, 1, 2, 6, 8


class Why(ctypes.Structure):
    _fields_ = [("reason", ctypes.c_uint32), ("offset", ctypes.c_uint64), ("consumed", ctypes.c_uint64)]

    def refusal(self):
        return Refusal(self.reason, self.offset, self.consumed)


class Library:
    """The calls of the shared object."""

    def __init__(self, path):
        self.calls = ctypes.CDLL(os.path.abspath(path))

    def words(self, limits):
        """The kinds of keys, the depth and the bytes, in the order of the parameters of each call."""
        return ctypes.c_uint32(limits.keys), ctypes.c_uint32(limits.depth), ctypes.c_uint64(limits.most)

    def writing(self, call, given, words, space):
        why, needed = Why(), ctypes.c_size_t()
        out = ctypes.create_string_buffer(b"\xaa" * space, space + 1)
        status = call(given, ctypes.c_size_t(len(given)), *words, out, ctypes.c_size_t(space), ctypes.byref(needed), ctypes.byref(why))
        if status == TOO_SMALL:
            expect("a buffer that is too small", b"\xaa" * space, out.raw[:space])
            return self.writing(call, given, words, needed.value)
        if status == REFUSED:
            expect("what was refused", (0, b"\xaa" * space), (needed.value, out.raw[:space]))
            return why.refusal()
        expect("status", OK, status)
        return out.raw[: needed.value]

    def canonicalise(self, given, order, limits, space):
        return self.writing(self.calls.naltvigo_canonicalise_raw, given, (ctypes.c_uint32(order), *self.words(limits)), space)

    def diagnostic(self, given, limits, space):
        return self.writing(self.calls.naltvigo_diagnostic_raw, given, self.words(limits), space)

    def judged(self, call, given, *words):
        why = Why()
        status = call(given, ctypes.c_size_t(len(given)), *words, ctypes.byref(why))
        return why.refusal() if status == REFUSED else expect("status", OK, status)

    def check_canonical(self, given, order, limits):
        return self.judged(self.calls.naltvigo_check_canonical_raw, given, ctypes.c_uint32(order), *self.words(limits))

    def check_valid(self, given, limits):
        return self.judged(self.calls.naltvigo_check_valid_raw, given, *self.words(limits))

    def next(self, call, given, *words):
        why, taken = Why(), ctypes.c_uint64(9)
        status = call(given, ctypes.c_size_t(len(given)), *words, ctypes.byref(taken), ctypes.byref(why))
        if status == REFUSED:
            expect("bytes taken of what was refused", 0, taken.value)
            return why.refusal()
        expect("status", OK, status)
        return taken.value

    def next_valid(self, given, limits):
        return self.next(self.calls.naltvigo_next_valid_raw, given, *self.words(limits))

    def next_canonical(self, given, order, limits):
        return self.next(self.calls.naltvigo_next_canonical_raw, given, ctypes.c_uint32(order), *self.words(limits))

    def in_parts(self, parts, order, limits):
        """What a checker says of an item in parts: as next_canonical of the whole."""
        calls, checker, why, used, length = self.calls, ctypes.c_void_p(), Why(), ctypes.c_size_t(9), 0
        status = calls.naltvigo_checker_new_raw(ctypes.c_uint32(order), *self.words(limits), ctypes.byref(checker))
        expect("status of a new checker", OK, status)
        for it in parts:
            status = calls.naltvigo_checker_feed_raw(ctypes.byref(checker), it, ctypes.c_size_t(len(it)), ctypes.byref(used), ctypes.byref(why))
            length += used.value
            if status != MORE:
                break
            expect("bytes used of a part", len(it), used.value)
        expect("status at the end", REFUSED if status == MORE else status, calls.naltvigo_checker_end_raw(ctypes.byref(checker), ctypes.byref(why)))
        calls.naltvigo_checker_free_raw(ctypes.byref(checker))
        if status == OK:
            return length
        expect("bytes used of what is refused", why.consumed, length)
        return why.refusal()

    def compare(self, left, right, limits):
        why, side = Why(), ctypes.c_uint32(9)
        words = left, ctypes.c_size_t(len(left)), right, ctypes.c_size_t(len(right)), *self.words(limits)
        status = self.calls.naltvigo_compare_raw(*words, ctypes.byref(side), ctypes.byref(why))
        return (["left", "right"][side.value], why.refusal()) if status == REFUSED else status
