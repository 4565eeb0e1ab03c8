#!/usr/bin/env python3
"""A destination to try things with: it listens on a loopback port, prints each message that it receives, and answers it.

Usage: peers/receive.py PORT [CODE] [--keep FILE]

CODE is MSA-1 of the answers, AA by default (AE: to be sent again, AR: rejected). With --keep each message is appended to FILE
before it is answered, as a line in hexadecimal, and not printed. Ctrl-C ends the program.
"""
import argparse
import sys
import threading

from mllp import Destination


def main():
    parser = argparse.ArgumentParser()
    parser.add_argument('port', type=int)
    parser.add_argument('code', nargs='?', default='AA')
    parser.add_argument('--keep')
    args = parser.parse_args()

    def respond(text, _):
        if args.keep:
            with open(args.keep, 'a', encoding='ascii') as file:
                file.write(text.hex() + '\n')
        else:
            print(text.decode(errors='replace').replace('\r', '\n'), flush=True)
        return args.code.encode()

    Destination(respond, port=args.port)
    try:
        threading.Event().wait()
    except KeyboardInterrupt:
        return 0


if __name__ == '__main__':
    sys.exit(main())
