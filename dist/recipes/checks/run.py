"""Reads logs: their lines go to the facts and to the decoder, and what the decoder prints and reports goes to the facts too."""
import os
import re
import select
import sys

from checks.facts import Facts
from screen.log import Decoder, kinds_of

MOST_WAITING = 1 << 18  # bytes that may wait for the decoder


class Failed(Exception):
    """The decoder has failed, with this status."""


def facts_of(command):
    """Facts without a line. The command is n2kdec decode with its arguments."""
    window = next((int(value) for word, value in zip(command, command[1:]) if word == "--window" and value.isdigit()), 10000)
    return Facts(lambda numbers: kinds_of(command, numbers) if command else {}, "--whole" in command, window)


def read(facts, log, command, output=None):
    """Reads a log to its end: a file, an open one (/dev/fd/N), or standard input (-). Its messages go to `output` too,
    one on each line."""
    file = 0 if log == "-" else int(log[8:]) if re.fullmatch(r"/dev/fd/\d+", log) else os.open(log, os.O_RDONLY)
    try:
        first = os.read(file, 1 << 16)
    except OSError as fault:
        raise OSError(fault.errno, fault.strerror, log) from None
    # A log of messages is decoded already.
    decoder = None if first.lstrip()[:1] == b"{" else Decoder(command)
    facts.part()
    rest, is_open, piece = b"", True, first
    notes = []
    try:
        while is_open or decoder and decoder.files:
            if piece is None:
                reads = [*(decoder.files if decoder else ())]
                if is_open and not (decoder and len(decoder.backlog) > MOST_WAITING):
                    reads.append(file)
                writes = [decoder.stdin] if decoder and decoder.backlog and decoder.stdin is not None else []
                readable, writable, _ = select.select(reads, writes, [])
            else:
                readable, writable = [], []
            if writable:
                decoder.write()
            for it in readable:
                if it == file:
                    piece = os.read(file, 1 << 16)
                elif it == decoder.output:
                    for line in decoder.read(it):
                        facts.message(line)
                        if output:
                            output(line)
                else:
                    notes += [text for text in (line.decode("utf-8", "replace") for line in decoder.read(it)) if not facts.report(text)]
            if piece is not None:
                cut = piece.rfind(b"\n") + 1 if piece else 0
                block = rest + (piece[:cut] if piece else b"\n" if rest else b"")
                if cut or not piece:
                    rest = piece[cut:]
                    if block:
                        facts.block(block)
                        if decoder:
                            decoder.backlog += block
                        elif output:
                            for line in block.splitlines():
                                output(line)
                elif len(rest) < 1 << 20:
                    rest += piece
                else:
                    # A line without an end is bad, however it continues.
                    piece = b""
                is_open, piece = bool(piece), None
                if not is_open and decoder and not decoder.backlog:
                    decoder.end()
            if not is_open and decoder and not decoder.backlog and decoder.stdin is not None:
                decoder.end()
    finally:
        if decoder and decoder.stdin is not None:
            decoder.end()
    os.close(file)
    facts.end()
    for text in notes[:20]:
        print(text, file=sys.stderr)
    if decoder and (status := decoder.process.wait()) not in (0, 1):
        raise Failed(status if 0 <= status <= 3 else 3)
