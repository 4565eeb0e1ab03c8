#!/usr/bin/env python3
"""Runs the built program on faulty and doubtful plans, and compares every line that it prints. Plain Python 3, no packages.

Usage: tests/plan_notes.py [PROGRAM]

PROGRAM is the built program, by default crates/hl7_engine/out/hl7_engine ('rt run' in crates/hl7_engine builds it).
The exit status is 0 if the program prints the expected lines for every plan, else 1. Each failure is printed.
"""
import os
import re
import subprocess
import sys
import tempfile

HERE = os.path.dirname(os.path.abspath(__file__))
PROGRAM = os.path.join(HERE, '..', 'crates', 'hl7_engine', 'out', 'hl7_engine')
ONE = open(os.path.join(HERE, '..', 'examples', 'one_destination.toml'), encoding='utf-8').read()
ROOM = 'note: channel ADT: a book of 1000000 entries takes 125000 messages while all its destinations are down, 333331 while all are up'


def changed(*pairs):
    """The built-in plan, with the first text of each pair replaced by the second."""
    text = ONE
    for old, new in pairs:
        assert old in text, old
        text = text.replace(old, new, 1)
    return text


def destination(line):
    return changed(('address = "127.0.0.1:6661"', f'address = "127.0.0.1:6661"\n{line}'))


def channel(line):
    return changed(('[[channel.route]]', f'{line}\n[[channel.route]]'))


def route(line):
    return changed(('to = "LAB"', f'to = "LAB"\n{line}'))


IS_LAB, IS_ADT = 'note: destination[0] is "LAB"', 'note: channel[0] is "ADT"'
PATHS = 'note: a path is NAME[n]-F[r].C.S, as PID-3, PID-3[2] or PID-3.1'
DESTINATION_KEYS = 'note: the keys of a destination here: name, address, attempts, interval, timeout, await'
CHANNEL_KEYS = 'note: the keys of a channel here: name, listen, types, processing, versions, filter, steps, route'
CONDITION_KEYS = 'equals, one_of, exists, starts, contains, all, any, not'
NAME = 'a text of 1 to 32 letters A to Z and a to z, digits, _ and -'

# Plans with a fault: the plan, the line that reports the fault, and the notes before it.
FAULTS = [
    # NotToml
    ('[[destination]', 'plan: NotToml', ['note: line 1, column 15: unclosed array table, expected `]]`']),
    (changed(('[[channel]]', '[[channel]')), 'plan: NotToml', ['note: line 6, column 11: unclosed array table, expected `]]`']),
    ('a = 1\nname = "C:\\data"', 'plan: NotToml',
     ['note: line 2, column 12: invalid escape sequence',
      'note: between double quotes a backslash begins an escape; between single quotes it is taken as it is written']),
    (b'a = 1\nname = "\xff"', 'plan: NotToml', ['note: line 2, column 9: the byte 0xFF at offset 14 is not UTF-8']),
    # UnknownKey
    (destination('atempts = 3'), 'plan: UnknownKey at destination[0].atempts',
     [IS_LAB, 'note: a destination has no key "atempts" here; the nearest is attempts', DESTINATION_KEYS]),
    (destination('retry = 1'), 'plan: UnknownKey at destination[0].retry',
     [IS_LAB, 'note: a destination has no key "retry" here', DESTINATION_KEYS]),
    ('chanel = []', 'plan: UnknownKey at chanel',
     ['note: a plan has no key "chanel" here; the nearest is channel', 'note: the keys of a plan here: destination, channel']),
    (channel('type = ["ADT"]'), 'plan: UnknownKey at channel[0].type',
     [IS_ADT, 'note: a channel has no key "type" here; the nearest is types', CHANNEL_KEYS]),
    (route('filters = {}'), 'plan: UnknownKey at channel[0].route[0].filters',
     [IS_ADT, 'note: a route has no key "filters" here; the nearest is filter', 'note: the keys of a route here: to, filter, steps']),
    (channel('filter = { equal = ["PV1-2", "I"] }'), 'plan: UnknownKey at channel[0].filter.equal',
     [IS_ADT, 'note: a condition has no key "equal" here; the nearest is equals', f'note: the keys of a condition here: {CONDITION_KEYS}']),
    (channel('steps = [{ clear = "PID-3", table = [] }]'), 'plan: UnknownKey at channel[0].steps[0].table',
     [IS_ADT, 'note: a step has "table" beside "lookup" alone', 'note: a step has no key "table" here',
      'note: the keys of a step here: set, copy, clear, lookup, remove']),
    (destination('"a.b" = 1'), 'plan: UnknownKey at destination[0]."a.b"',
     [IS_LAB, 'note: a destination has no key "a.b" here', DESTINATION_KEYS]),
    (destination('"a\\nplan ok\\u001B[1m" = 1'), 'plan: UnknownKey at destination[0]."a\\x0Aplan ok\\x1B[1m"',
     [IS_LAB, 'note: a destination has no key "a\\x0Aplan ok\\x1B[1m" here', DESTINATION_KEYS]),
    (channel('"filter.x" = 1'), 'plan: UnknownKey at channel[0].filter.x',
     [IS_ADT, 'note: a channel has no key "filter.x" here; the nearest is filter', CHANNEL_KEYS]),
    # Missing
    ('', 'plan: Missing at destination',
     ['note: destination: the peers that messages go to; wanted: a list of 0 to 32 tables (destination = [] where there is none), '
      'as [[destination]]']),
    (changed(('listen = "127.0.0.1:6660"\n', '')), 'plan: Missing at channel[0].listen',
     [IS_ADT, 'note: listen: the address at which the channel takes connections; wanted: a text HOST:PORT of 1 to 255 bytes, '
              'as listen = "127.0.0.1:6660"']),
    (changed(('name = "LAB"\n', '')), 'plan: Missing at destination[0].name',
     [f'note: name: what routes and the counts call the destination; wanted: {NAME}, as name = "LAB"']),
    ('destination = []', 'plan: Missing at channel',
     ['note: channel: the listeners that messages come in on; wanted: a list of 1 to 64 tables, as [[channel]]']),
    ('destination = []\nchannel = []', 'plan: Missing at channel',
     ['note: found a list of 0 members',
      'note: channel: the listeners that messages come in on; wanted: a list of 1 to 64 tables, as [[channel]]']),
    (channel('filter = {}'), 'plan: Missing at channel[0].filter', [IS_ADT, f'note: a condition has one of the keys {CONDITION_KEYS}']),
    (channel('steps = [{}]'), 'plan: Missing at channel[0].steps[0]',
     [IS_ADT, 'note: a step has one of the keys set, copy, clear, lookup, remove']),
    (channel('steps = [{ lookup = "PID-8" }]'), 'plan: Missing at channel[0].steps[0].table',
     [IS_ADT, 'note: table: the pairs of a lookup; wanted: a list of at most 1000 lists of two texts, as table = [["1", "M"], ["2", "F"]]']),
    # BadRange: numbers, texts, words, lists, tables
    (destination('attempts = 0'), 'plan: BadRange at destination[0].attempts',
     [IS_LAB, 'note: found the number 0; wanted: a whole number from 1 to 100, as attempts = 3']),
    (destination('interval = 1.5'), 'plan: BadRange at destination[0].interval',
     [IS_LAB, 'note: found a number with a point; wanted: a whole number from 0 to 86400, as interval = 10']),
    (destination('timeout = "30"'), 'plan: BadRange at destination[0].timeout',
     [IS_LAB, 'note: found the text "30" of 2 bytes; wanted: a whole number from 1 to 3600, as timeout = 30']),
    (destination('await = true'), 'plan: BadRange at destination[0].await',
     [IS_LAB, 'note: found true; wanted: the text "ack" (its acknowledgment) or "none" (that it was written), as await = "ack"']),
    (changed(('"LAB"', '"LAB 1"')), 'plan: BadRange at destination[0].name',
     ['note: destination[0] is "LAB 1"',
      f'note: found the text "LAB 1" of 5 bytes; wanted: {NAME}, as name = "LAB"']),
    (changed(('"127.0.0.1:6661"', '""')), 'plan: BadRange at destination[0].address',
     [IS_LAB, 'note: found the text "" of 0 bytes; wanted: a text HOST:PORT of 1 to 255 bytes, as address = "127.0.0.1:6661"']),
    (changed(('"127.0.0.1:6660"', f'"{"é" * 200}"')), 'plan: BadRange at channel[0].listen',
     [IS_ADT, 'note: found the text "' + '\\xC3\\xA9' * 64 + '.." of 400 bytes; wanted: a text HOST:PORT of 1 to 255 bytes, '
              'as listen = "127.0.0.1:6660"']),
    (changed(('["ADT"]', '["ADT", "adt"]')), 'plan: BadRange at channel[0].types[1]',
     [IS_ADT, 'note: found the text "adt" of 3 bytes; wanted: a text: CODE, CODE^EVENT or *; each of 1 to 16 of A to Z and 0 to 9, as "ADT^A01"']),
    (changed(('["P", "T"]', '["P", "X"]')), 'plan: BadRange at channel[0].processing[1]',
     [IS_ADT, 'note: found the text "X" of 1 bytes; wanted: the text P, T or D, as "P"']),
    (changed(('["2.5.1"]', '[2.5]')), 'plan: BadRange at channel[0].versions[0]',
     [IS_ADT, 'note: found a number with a point; wanted: a text of 1 to 16 bytes, as "2.5.1"']),
    (changed(('["2.5.1"]', '1979-05-27')), 'plan: BadRange at channel[0].versions',
     [IS_ADT, 'note: found a date or a time; wanted: a list of at most 256 texts of 1 to 16 bytes, * for any version, as versions = ["2.5.1"]']),
    (channel('filter = { equals = ["PV1-2"] }'), 'plan: BadRange at channel[0].filter.equals',
     [IS_ADT, 'note: found a list of 1 members; wanted: a list of a path and a text, as equals = ["PV1-2", "I"]']),
    (channel('filter = { exists = "PID-3", not = {} }'), 'plan: BadRange at channel[0].filter',
     [IS_ADT, 'note: found the keys exists, not; a condition has one of them']),
    (channel('filter = "PID-3"'), 'plan: BadRange at channel[0].filter',
     [IS_ADT, 'note: found the text "PID-3" of 5 bytes; wanted: a table with one condition, as filter = { equals = ["PV1-2", "I"] }']),
    (channel('steps = [{ clear = "PID-3" }, 5]'), 'plan: BadRange at channel[0].steps[1]',
     [IS_ADT, 'note: found the number 5; wanted: a table with one step, as { clear = "PID-19" }']),
    (channel('steps = [{ lookup = "PID-8", table = [["1"]] }]'), 'plan: BadRange at channel[0].steps[0].table[0]',
     [IS_ADT, 'note: found a list of 1 members; wanted: a list of two texts, as ["1", "M"]']),
    (changed(('to = "LAB"', 'to = 5')), 'plan: BadRange at channel[0].route[0].to',
     [IS_ADT, 'note: found the number 5; wanted: a text, the name of a destination, as to = "LAB"']),
    # BadPath
    (channel('filter = { exists = "PID" }'), 'plan: BadPath at channel[0].filter.exists',
     [IS_ADT, 'note: "PID" is no path: it names no field', PATHS]),
    (channel('filter = { all = [{ equals = ["pid-3", ""] }] }'), 'plan: BadPath at channel[0].filter.all[0].equals',
     [IS_ADT, 'note: "pid-3" is no path: its segment "pid" is not three of A to Z and 0 to 9, the first a letter', PATHS]),
    (channel('steps = [{ set = ["PID-03", "x"] }]'), 'plan: BadPath at channel[0].steps[0].set',
     [IS_ADT, 'note: "PID-03" is no path: its field "03" is not a number from 1 to 999 without leading zeros', PATHS]),
    (channel('steps = [{ clear = "PID[x]-3" }]'), 'plan: BadPath at channel[0].steps[0].clear',
     [IS_ADT, 'note: "PID[x]-3" is no path: the index "x]" of its segment is not a number from 1 to 999 and a bracket', PATHS]),
    (channel('steps = [{ copy = ["PID-3", "PID-3..1"] }]'), 'plan: BadPath at channel[0].steps[0].copy',
     [IS_ADT, 'note: "PID-3..1" is no path: its component "" is not a number from 1 to 999 without leading zeros', PATHS]),
    (channel('steps = [{ copy = ["PID-3", "PID-2.1"] }]'), 'plan: BadPath at channel[0].steps[0].copy',
     [IS_ADT, 'note: "PID-3" is a field and "PID-2.1" a component; a copy keeps the level']),
    (channel('steps = [{ copy = ["PID-3", "PID-4.1"] }]'), 'plan: BadPath at channel[0].steps[0].copy',
     [IS_ADT, 'note: "PID-3" is a field and "PID-4.1" a component; a copy keeps the level']),
    (channel('steps = [{ copy = ["MSH-2", "PID-2"] }]'), 'plan: BadPath at channel[0].steps[0].copy',
     [IS_ADT, 'note: MSH-1 and MSH-2 declare the delimiters; no step copies from or to them']),
    (channel('steps = [{ lookup = "MSH[2]-3", table = [] }]'), 'plan: BadPath at channel[0].steps[0].lookup',
     [IS_ADT, 'note: "MSH[2]-3" is no path: there is one MSH, and MSH-1 and MSH-2 have no repetitions and parts', PATHS]),
    (channel('steps = [{ remove = "ZPDX" }]'), 'plan: BadPath at channel[0].steps[0].remove',
     [IS_ADT, 'note: "ZPDX" is no segment\'s name: three of A to Z and 0 to 9, the first a letter']),
    # ForbiddenWrite
    (channel('steps = [{ set = ["MSH-10", "1"] }]'), 'plan: ForbiddenWrite at channel[0].steps[0].set',
     [IS_ADT, 'note: "MSH-10" can\'t be written: no step writes MSH-1, MSH-2 or MSH-10, and none removes MSH']),
    (channel('steps = [{ remove = "MSH" }]'), 'plan: ForbiddenWrite at channel[0].steps[0].remove',
     [IS_ADT, 'note: "MSH" can\'t be written: no step writes MSH-1, MSH-2 or MSH-10, and none removes MSH']),
    # UnknownName
    (changed(('to = "LAB"', 'to = "lab"')), 'plan: UnknownName at channel[0].route[0].to',
     [IS_ADT, 'note: no destination is named "lab"; there are "LAB"']),
    ('destination = []\n' + ONE[ONE.index('[[channel]]'):], 'plan: UnknownName at channel[0].route[0].to',
     [IS_ADT, 'note: no destination is named "LAB"; the plan has none']),
    # DoubleName
    (changed(('[[channel]]', '[[destination]]\nname = "LAB"\naddress = "127.0.0.1:6662"\n[[channel]]')),
     'plan: DoubleName at destination[1].name',
     ['note: destination[1] is "LAB"', 'note: destination[0] is named "LAB" already', 'note: all in their order: "LAB", "LAB"']),
    (ONE + ONE[ONE.index('[[channel]]'):], 'plan: DoubleName at channel[1].name',
     ['note: channel[1] is "ADT"', 'note: channel[0] is named "ADT" already', 'note: all in their order: "ADT", "ADT"']),
    (ONE + '[[channel.route]]\nto = "LAB"\n', 'plan: DoubleName at channel[0].route[1].to',
     [IS_ADT, 'note: route[0] leads to "LAB" already', 'note: all in their order: "LAB", "LAB"']),
    (channel('steps = [{ lookup = "PID-8", table = [["1", "M"], ["2", "F"], ["1", "U"]] }]'),
     'plan: DoubleName at channel[0].steps[0].table', [IS_ADT, 'note: the text "1" is in table[0] and in table[2]']),
    # TooMany
    (changed(('["P", "T"]', str(['P'] * 257))), 'plan: TooMany at channel[0].processing',
     [IS_ADT, 'note: found a list of 257 members; wanted: a list of at most 256 texts: P, T or D, as processing = ["P", "T"]']),
    (channel('filter = ' + '{ not = ' * 16 + '{ exists = "PID-3" }' + ' }' * 16),
     'plan: TooMany at channel[0].filter' + '.not' * 16, [IS_ADT, 'note: conditions are at most 16 deep']),
    ('destination = [' + '{},' * 33 + ']', 'plan: TooMany at destination',
     ['note: found a list of 33 members; wanted: a list of 0 to 32 tables (destination = [] where there is none), as [[destination]]']),
]

SECOND = ONE[ONE.index('[[channel]]'):].replace('"ADT"', '"SECOND"', 1)

# Plans that can be read: the plan, the line with its size, and the warnings and notes, the last of which say how many messages fit.
WARNED = [
    (ONE, 'plan ok: 1 channels, 1 destinations', [ROOM]),
    (changed(('127.0.0.1:6661', 'lab.example')), 'plan ok: 1 channels, 1 destinations',
     ['warning: destination LAB: address = "lab.example" is not HOST:PORT, as 127.0.0.1:6660', ROOM]),
    (changed(('127.0.0.1:6661', '::1:6661')), 'plan ok: 1 channels, 1 destinations',
     ['warning: destination LAB: address = "::1:6661" is not HOST:PORT, as 127.0.0.1:6660', ROOM]),
    (changed(('127.0.0.1:6661', '[::1]:65535')), 'plan ok: 1 channels, 1 destinations', [ROOM]),
    (changed(('127.0.0.1:6661', 'lab.example:65536')), 'plan ok: 1 channels, 1 destinations',
     ['warning: destination LAB: address = "lab.example:65536" has a port that is not a number from 1 to 65535', ROOM]),
    (changed(('127.0.0.1:6661', 'lab.example:mllp')), 'plan ok: 1 channels, 1 destinations',
     ['warning: destination LAB: address = "lab.example:mllp" has a port that is not a number from 1 to 65535', ROOM]),
    (changed(('127.0.0.1:6661', '127.0.0.999:6661')), 'plan ok: 1 channels, 1 destinations',
     ['warning: destination LAB: address = "127.0.0.999:6661" has a host that is neither a name nor four numbers from 0 to 255', ROOM]),
    (changed(('127.0.0.1:6661', '10.1.2:6661')), 'plan ok: 1 channels, 1 destinations',
     ['warning: destination LAB: address = "10.1.2:6661" has a host that is neither a name nor four numbers from 0 to 255', ROOM]),
    (changed(('127.0.0.1:6661', '10.1.2.lab:6661')), 'plan ok: 1 channels, 1 destinations', [ROOM]),
    (changed(('127.0.0.1:6660', '127.0.0.1:0')), 'plan ok: 1 channels, 1 destinations',
     ['warning: channel ADT: listen = "127.0.0.1:0" has port 0, which is no port to connect to', ROOM]),
    (changed(('127.0.0.1:6660', ':6660')), 'plan ok: 1 channels, 1 destinations',
     ['warning: channel ADT: listen = ":6660" is not HOST:PORT, as 127.0.0.1:6660', ROOM]),
    (ONE + SECOND, 'plan ok: 2 channels, 1 destinations',
     ['warning: channel SECOND: listen = "127.0.0.1:6660" is the address of channel ADT too', ROOM, ROOM.replace('ADT', 'SECOND')]),
    (ONE + SECOND.replace('127.0.0.1', '0.0.0.0'), 'plan ok: 2 channels, 1 destinations',
     ['warning: channel SECOND: listen = "0.0.0.0:6660" is the address of channel ADT too', ROOM, ROOM.replace('ADT', 'SECOND')]),
    (ONE + SECOND.replace('127.0.0.1', '127.0.0.2'), 'plan ok: 2 channels, 1 destinations', [ROOM, ROOM.replace('ADT', 'SECOND')]),
    (changed(('127.0.0.1:6661', '127.0.0.1:6660')), 'plan ok: 1 channels, 1 destinations',
     ['warning: destination LAB: address = "127.0.0.1:6660" is channel ADT of this plan', ROOM]),
    (changed(('127.0.0.1:6661', 'LocalHost:6660'), ('127.0.0.1:6660', '0.0.0.0:6660')), 'plan ok: 1 channels, 1 destinations',
     ['warning: destination LAB: address = "LocalHost:6660" is channel ADT of this plan', ROOM]),
    (changed(('127.0.0.1:6661', 'lab.example:6660'), ('127.0.0.1:6660', '0.0.0.0:6660')), 'plan ok: 1 channels, 1 destinations', [ROOM]),
    (changed(('[[channel.route]]\nto = "LAB"\n', '')), 'plan ok: 1 channels, 1 destinations',
     ['warning: channel ADT has no route: what it takes goes nowhere', 'warning: destination LAB: no route leads to it',
      'note: channel ADT: a book of 1000000 entries takes 1000000 messages while all its destinations are down, 1000000 while all are up']),
    (changed(('["ADT"]', '[]'), ('["P", "T"]', '[]'), ('["2.5.1"]', '[]')), 'plan ok: 1 channels, 1 destinations',
     [f'warning: channel ADT has no {key}: it refuses every message' for key in ('types', 'processing', 'versions')] + [ROOM]),
]


def called(program, words):
    ran = subprocess.run([program, *words], stdin=subprocess.DEVNULL, capture_output=True, timeout=60)
    return ran.returncode, ran.stdout.decode(), ran.stderr.decode()


def lines_of(texts):
    return ''.join(text + '\n' for text in texts)


def wrong(program, folder):
    """The plans for which other lines than the expected ones are printed, with these lines."""
    path, lines = os.path.join(folder, 'plan.toml'), []

    def compare(text, words, wanted):
        with open(path, 'wb') as file:
            file.write(text if isinstance(text, bytes) else text.encode())
        got = called(program, words)
        if got != wanted:
            lines.append(f'{words[0]} {text!r}:\n  {got}\n  not\n  {wanted}')
        if re.search('[^\n -~]', got[2]):
            lines.append(f'{words[0]} {text!r}: a control byte in {got[2]!r}')

    for text, fault, notes in FAULTS:
        for words in (['check', path], ['answer', path], ['run', path, '--accept', '1']):
            compare(text, words, (1, '', lines_of(notes + [fault])))
    for text, size, warnings in WARNED:
        compare(text, ['check', path], (0, size + '\n', lines_of(warnings)))
    # A run prints it for its own book, before it listens. No machine has this address.
    nowhere = changed(('127.0.0.1:6660', '192.0.2.1:6660'))
    for events, down, up in [(20, 2, 5), (8, 1, 1), (7, 0, 0), (16, 2, 3)]:
        room = f'note: channel ADT: a book of {events} entries takes {down} messages while all its destinations are down, {up} while all are up'
        with open(path, 'w', encoding='utf-8') as file:
            file.write(nowhere)
        status, out, err = called(program, ['run', path, '--accept', '1', '--events', str(events)])
        if (status, out) != (3, '') or not err.startswith(room + '\n') or not err.endswith('device: listen ADT\n'):
            lines.append(f'run with {events} entries: {(status, out, err)}, not {room}')
    # A file that doesn't exist.
    wanted = (3, '', 'note: "no/such.toml" can\'t be read: No such file or directory (os error 2)\nfile: no/such.toml\n')
    for words in (['check', 'no/such.toml'], ['answer', 'no/such.toml'], ['run', 'no/such.toml', '--accept', '1']):
        if (got := called(program, words)) != wanted:
            lines.append(f'{words}: {got}, not {wanted}')
    return lines


def main():
    program = sys.argv[1] if len(sys.argv) > 1 else PROGRAM
    with tempfile.TemporaryDirectory() as folder:
        lines = wrong(os.path.abspath(program), folder)
    for line in lines:
        print(line)
    print('the lines for all plans are as expected' if not lines else f'{len(lines)} failures')
    return 1 if lines else 0


if __name__ == '__main__':
    sys.exit(main())
