"""Signals for expected.py: the frame that a delivery writes below SP, and the return that reads it,
as docs/KERNEL.md lays it out.

Kernel 2 has besides a mask of signals that wait, and handlers within handlers; its frame has the
mask and the depth before the delivery, at 320.
"""
from __future__ import annotations

import struct
from typing import Any

from smemu_tools.model.expected_vectors import MASK, Vectors

# of each kernel the first bytes of a frame, the bytes before its vectors, and how many handlers may
# be within one another
TAGS, HEADS, DEPTHS = {1: b"SMEFRAM1", 2: b"SMEFRAM2"}, {1: 320, 2: 336}, {1: 1, 2: 64}
# the bits of signals 1 to 62
SIGNALS = (1 << 63) - 2
# a call's answer where an argument is none
INVALID = -22 & MASK


class BadFrame(Exception):
    """The frame cannot be written or read, or is none."""


def bits(truths: list[bool]) -> bytes:
    return bytes(sum(truths[at + k] << k for k in range(8)) for at in range(0, len(truths), 8))


def truths(packed: bytes) -> list[bool]:
    return [bool(byte >> k & 1) for byte in packed for k in range(8)]


def frame(thread: Any, signal: int) -> bytes:
    """The bytes of the frame of a thread."""
    vectors, matrix = thread.vectors, thread.matrix
    length, array = vectors.length, matrix.lengths[1]
    size = HEADS[thread.kernel] + 34 * length + 32 + (array * array if matrix.on else 0)
    flags = sum(flag << 31 - k for k, flag in enumerate(thread.flags))
    head = TAGS[thread.kernel] + struct.pack("<II", size, signal) + struct.pack("<31Q", *thread.x)
    head += struct.pack("<6Q", thread.sp, thread.pc, flags, matrix.svcr(), thread.tpidr2,
                        thread.tpidr)
    head += struct.pack("<II", length, array)
    if thread.kernel == 2:
        head += struct.pack("<QII", thread.mask, thread.depth, 0)
    rest = b"".join(map(bytes, vectors.z)) + b"".join(map(bits,
                                                          vectors.p)) + bits(vectors.ffr).ljust(
        32, b"\0")
    return head + rest + (b"".join(map(bytes, matrix.za)) if matrix.on else b"")


def deliver(thread: Any, signal: int) -> None:
    """Writes the frame and begins the handler."""
    content = frame(thread, signal)
    address = (thread.sp - len(content) & MASK) // 16 * 16
    for k in range(len(content)):
        if thread.bytes_with(2, address + k, 1) is None:
            raise BadFrame(address + k & MASK)
    for k in range(0, len(content), 8):
        thread.store(address + k, 8, int.from_bytes(content[k:k + 8], "little"))
    thread.matrix.change(thread, False, False)
    thread.x[0], thread.x[1], thread.x[30] = signal, address, 0
    thread.sp, thread.pc, thread.tpidr2, thread.depth = (address, thread.handlers[signal], 0,
                                                         thread.depth + 1)
    if thread.kernel == 2:
        thread.mask |= 1 << signal


def read(thread: Any, count: int) -> bytes:
    """That many bytes from SP on."""
    for k in range(count):
        if thread.bytes_with(4, thread.sp + k, 1) is None:
            raise BadFrame(thread.sp + k & MASK)
    return thread.bytes_with(4, thread.sp, count)


def come_back(thread: Any) -> None:
    """Returns from a handler."""
    start = HEADS[thread.kernel]
    head = read(thread, start)
    size, signal = struct.unpack_from("<II", head, 8)
    sp, pc, flags, svcr, tpidr2, tpidr = struct.unpack_from("<6Q", head, 264)
    length, array = struct.unpack_from("<II", head, 312)
    lengths, mask, depth = thread.matrix.lengths, 0, 0
    good = (head[:8] == TAGS[thread.kernel] and 1 <= signal <= 62 and flags & ~0xF0000000 == 0
            and svcr < 4 and array == lengths[1] and length == lengths[svcr & 1]
            and size == start + 34 * length + 32 + (array * array if svcr & 2 else 0))
    if thread.kernel == 2:
        mask, depth, zeros = struct.unpack_from("<QII", head, 320)
        good = good and mask & ~SIGNALS == 0 and depth < thread.depth and zeros == 0
    content = read(thread, size) if good else head
    at = start + 34 * length
    if not good or not thread.depth or any(content[at + length // 8:at + 32]):
        raise BadFrame(thread.sp)
    thread.x = list(struct.unpack_from("<31Q", head, 16))
    thread.sp, thread.pc, thread.tpidr, thread.tpidr2 = sp, pc, tpidr, tpidr2
    thread.flags = [flags >> 31 - k & 1 for k in range(4)]
    thread.vectors = Vectors(length)
    thread.vectors.z = [list(content[start + n * length:start + (n + 1) * length])
                        for n in range(32)]
    part = length // 8
    thread.vectors.p = [truths(content[start + 32 * length + n * part:][:part]) for n in range(16)]
    thread.vectors.ffr = truths(content[at:at + part])
    thread.matrix.streaming, thread.matrix.on = bool(svcr & 1), bool(svcr & 2)
    thread.matrix.clear()
    if svcr & 2:
        thread.matrix.za = [list(content[at + 32 + n * array:][:array]) for n in range(array)]
    thread.mask, thread.depth = mask, depth


def set_mask(thread: Any) -> int:
    """The answer of the call, which is the mask before it."""
    how, signals, before = thread.x[0], thread.x[1] & SIGNALS, thread.mask
    if how > 2:
        return INVALID
    thread.mask = (before | signals, before & ~signals, signals)[how]
    return before
