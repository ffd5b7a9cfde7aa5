#!/usr/bin/env python3
"""Hands texts to a plug-in, and prints what it gives back.

    $ ./plugin_host.py ../guests/upper.wasm hello 'and again'
    HELLO
    AND AGAIN

The plug-in keeps the convention of docs/GUESTS.md, `alloc` and `handle`, and nothing that it gives is believed. Ends with 1 where a text
has no answer, and with 2 where there is no plug-in.
"""
from __future__ import annotations

import os
import sys

import gate

NO_ANSWER = 2 ** 64 - 1


class NoRoom(Exception):
    """The plug-in has no room for the text."""


def ask(plug_in: gate.Instance, text: bytes) -> bytes | None:
    """What the plug-in answers to a text; None where it has no answer."""
    address = plug_in.call('alloc', len(text)).value().bits
    if not address:
        raise NoRoom('no room')
    plug_in.write(address, text)
    answer = plug_in.call('handle', address, len(text)).value().bits
    return None if answer == NO_ANSWER else plug_in.read(answer >> 32, answer % 2 ** 32)


def ask_all(plug_in: gate.Instance, texts: list[bytes]) -> int:
    """Prints each answer. The plug-in begins anew for each text, with all its room, whatever the last one did to it."""
    status = 0
    for text in texts:
        try:
            answer = ask(plug_in, text)
            print('no answer' if answer is None else answer.decode(errors='replace'))
            status |= answer is None
        except (NoRoom, gate.BadArguments, gate.CallError, gate.OutsideMemory) as fault:
            print(f'fault: {fault}')
            status = 1
        plug_in.reset()
    return status


def main(path: str, texts: list[bytes]) -> int:
    with open(path, 'rb') as file:
        module = file.read()
    try:
        with gate.Module(module) as judged, judged.instance(gate.Settings(pages=32)) as plug_in:
            return ask_all(plug_in, texts)
    except (gate.ModuleRefused, gate.NoInstance) as fault:
        print(fault)
        return 2


if __name__ == '__main__':
    sys.exit(main(sys.argv[1], list(map(os.fsencode, sys.argv[2:]))) if len(sys.argv) > 1 else __doc__)
