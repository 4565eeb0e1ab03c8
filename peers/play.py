#!/usr/bin/env python3
"""Plays senders and destinations around the built program, over loopback, and compares its output with its input.

Usage: peers/play.py [PROGRAM] [--senders N] [--messages N] [--idle N] [--only WORD]

PROGRAM is the built program, by default crates/hl7_engine/out/hl7_engine ('rt run' in crates/hl7_engine builds it).
Plain Python 3, no packages. The exit status is 0 if every check passes, else 1. Each failure is printed on a line of its own.
"""
import argparse
import os
import subprocess
import sys
import tempfile
import time

from channels import channels
from crowd import many_senders
from engine import PROGRAM
from faults import all_faults
from hostile import destinations, idle_connections, senders
from lines import filling_book, full_book, refused_messages
from plain import conversation, example, stock_peers
from receivers import all_receivers


def main():
    parser = argparse.ArgumentParser()
    parser.add_argument('program', nargs='?', default=PROGRAM)
    parser.add_argument('--senders', type=int, default=200)
    parser.add_argument('--messages', type=int, default=100)
    parser.add_argument('--idle', type=int, default=1_000)
    parser.add_argument('--only', default='')
    args = parser.parse_args()
    program, lines = os.path.abspath(args.program), []
    scenes = [('a conversation', conversation), ('an example', example), ('python3-hl7', stock_peers),
              ('faults in their order', all_faults), ('receivers', all_receivers), ('channels', channels),
              ('hostile destinations', destinations), ('hostile senders', senders),
              ('lines of the log', refused_messages), ('a full book', full_book), ('a filling book', filling_book),
              ('idle connections', lambda program, folder: idle_connections(program, folder, args.idle)),
              ('many senders', lambda program, folder: many_senders(program, folder, args.senders, args.messages))]
    for name, scene in scenes:
        if args.only not in name:
            continue
        began = time.monotonic()
        with tempfile.TemporaryDirectory() as folder:
            try:
                found = scene(program, folder)
            except (OSError, RuntimeError, subprocess.SubprocessError) as error:
                found = [f'{name}: {error!r}']
        print(f'{name}: {"as it should be" if not found else "WRONG"}, {time.monotonic() - began:.1f} seconds', flush=True)
        lines += found
    for line in lines:
        print(line)
    return 1 if lines else 0


if __name__ == '__main__':
    sys.exit(main())
