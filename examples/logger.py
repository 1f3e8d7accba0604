#!/usr/bin/env python3
"""Plays a datalogger for `ping`, and for nothing more: python3 examples/logger.py [PORT]

It listens on 127.0.0.1, at a free port where none is given, and prints that port's line first. Each frame that comes
(<) or goes (>) is printed in hexadecimal. A hello gets a hello reply and a clock command gets this machine's time, in
UTC, from whichever node was asked. Everything else, damaged frames too, goes unanswered.

    python3 -m doctest examples/logger.py
"""

import socket
import struct
import sys
import time

FLAG = b"\xBD"
BROADCAST = 0xFFF
PAKCTRL, BMP5 = 0, 1
HELLO, HELLO_REPLY = 0x09, 0x89
CLOCK, CLOCK_REPLY = 0x17, 0x97
EPOCH = 631152000  # 1990-01-01 in seconds since 1970-01-01


def signature(data, seed=0xAAAA):
    """PakBus's signature of some bytes.

    >>> hex(signature(bytes.fromhex("9001 0FFE")))
    '0x332e'
    """
    for byte in data:
        low = seed << 1 & 0x1FF
        low += low >= 0x100
        seed = low + (seed >> 8) + byte & 0xFF | (seed & 0xFF) << 8
    return seed


def nullifier(seed):
    """The two bytes that make a signature 0.

    >>> nullifier(0x332E).hex()
    '71d2'
    """
    low = seed << 1 & 0x1FF
    low += low >= 0x100
    return bytes([-(low + (seed >> 8)) & 0xFF, -seed & 0xFF])


def frame(content):
    """The content with its nullifier, quoted, between two flag bytes.

    >>> frame(bytes.fromhex("A001 9FFE 0001 0FFE 0901 0002 0708")).hex(" ")
    'bd a0 01 9f fe 00 01 0f fe 09 01 00 02 07 08 e8 1f bd'
    >>> frame(bytes.fromhex("90BC 0FBD")).hex(" ")
    'bd 90 bc dc 0f bc dd 2c 6b bd'
    """
    body = content + nullifier(signature(content))
    quoted = body.replace(b"\xBC", b"\xBC\xDC").replace(FLAG, b"\xBC\xDD")
    return FLAG + quoted + FLAG


def content(piece):
    """The content between two flag bytes, or None where it is damaged.

    >>> content(bytes.fromhex("90 BCDC 0F BCDD 2C6B")).hex()
    '90bc0fbd'
    >>> content(bytes.fromhex("9001 0FFE 71D3")) is None
    True
    """
    body = piece.replace(b"\xBC\xDD", FLAG).replace(b"\xBC\xDC", b"\xBC")
    return None if len(body) < 6 or signature(body) else body[:-2]


def answer(packet, now):
    """The content that answers a packet, at a time in seconds since 1970-01-01; None where nothing does.

    >>> answer(bytes.fromhex("A001 9FFE 0001 0FFE 0901 0002 0708"), 0).hex(" ", -2)
    'affe 9001 0ffe 0001 8901 0002 0708'
    >>> answer(bytes.fromhex("A001 5FFE 1001 0FFE 1702 0000 00000000 00000000"), EPOCH + 1.5).hex(" ", -2)
    'affe 1001 1ffe 0001 9702 0000 0000 011d cd65 00'
    >>> answer(bytes.fromhex("A001 5FFE 1001 0FFE 0903"), 0), answer(bytes.fromhex("9001 0FFE"), 0)
    (None, None)
    """
    if len(packet) < 10:
        return None
    to_phys, from_phys, to_node, from_node = struct.unpack(">4H", packet[:8])
    protocol, kind, transaction = to_node >> 12, packet[8], packet[9]
    if to_node & 0xFFF == BROADCAST:
        return None
    if (protocol, kind) == (PAKCTRL, HELLO):
        # No router; a hop metric of 2; the link is to be verified every 1800 s.
        more, message = 2, struct.pack(">4BH", HELLO_REPLY, transaction, 0, 2, 1800)
    elif (protocol, kind) == (BMP5, CLOCK):
        seconds = int(now // 1)
        more, message = 0, struct.pack(">3B2i", CLOCK_REPLY, transaction, 0, seconds - EPOCH, int((now - seconds) * 1e9))
    else:
        return None
    # The link is ready, the priority normal, the hop count 0.
    words = (
        0xA000 | from_phys & 0xFFF,
        more << 14 | 1 << 12 | to_phys & 0xFFF,
        protocol << 12 | from_node & 0xFFF,
        to_node & 0xFFF,
    )
    return struct.pack(">4H", *words) + message


def serve(stream):
    """Answers the frames of one connection, until its end."""
    left = b""
    while data := stream.recv(4096):
        *pieces, left = (left + data).split(FLAG)
        for piece in filter(None, pieces):
            print("<", (FLAG + piece + FLAG).hex(" ").upper(), flush=True)
            packet = content(piece)
            reply = answer(packet, time.time()) if packet else None
            if reply:
                print(">", frame(reply).hex(" ").upper(), flush=True)
                stream.sendall(frame(reply))


def main():
    port = int(sys.argv[1]) if len(sys.argv) > 1 else 0
    with socket.create_server(("127.0.0.1", port)) as listener:
        print("listening at 127.0.0.1:%d" % listener.getsockname()[1], flush=True)
        while True:
            stream, _ = listener.accept()
            with stream:
                try:
                    serve(stream)
                except ConnectionError as error:
                    print(error, flush=True)


if __name__ == "__main__":
    try:
        main()
    except KeyboardInterrupt:
        pass
