#!/usr/bin/env python3
"""A sender to try things with: it sends the message on standard input to a loopback port, and prints the answers.

Usage: peers/send.py PORT

The message is an MLLP block, or a text whose segments may end in line feeds, which are sent as carriage returns. The exit status is
0 if there was an answer, else 1.
"""
import argparse
import socket
import sys

from mllp import START, block, blocks


def main():
    parser = argparse.ArgumentParser()
    parser.add_argument('port', type=int)
    port, given, answered = parser.parse_args().port, sys.stdin.buffer.read(), 0
    if not given.startswith(START):
        given = block(given.replace(b'\r\n', b'\r').replace(b'\n', b'\r').strip(b'\r') + b'\r')
    try:
        with socket.create_connection(('127.0.0.1', port), timeout=30) as peer:
            peer.sendall(given)
            peer.shutdown(socket.SHUT_WR)
            for answered, reply in enumerate(blocks(peer), 1):
                print(reply.decode(errors='replace').replace('\r', '\n').rstrip('\n'), flush=True)
    except OSError as error:
        print(f'peers/send.py: {error}', file=sys.stderr)
    return 0 if answered else 1


if __name__ == '__main__':
    sys.exit(main())
