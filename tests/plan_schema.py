#!/usr/bin/env python3
"""Runs `check` of the built service on the plans of examples/, and compares plan.schema.json with it. Among the examples and 300
random plans, the schema has to accept every plan that `check` accepts; and it has to reject each of a list of wrong plans that a
schema can reject. If Python's package jsonschema isn't installed, the script says so and leaves the schema out.

Usage: tests/plan_schema.py [PROGRAM]

The exit status is 0 if everything is as expected, else 1.
"""
import json
import os
import random
import subprocess
import sys
import tempfile
import tomllib

HERE = os.path.join(os.path.dirname(os.path.abspath(__file__)), '..')
PROGRAM = os.path.join(HERE, 'crates', 'hl7_service', 'out', 'hl7_service')

START = 'destination = [{ name = "LAB", address = "127.0.0.1:6661" }]\n'
CHANNEL = '[[channel]]\nname = "ADT"\nlisten = "127.0.0.1:6660"\ntypes = ["ADT"]\nprocessing = ["P"]\nversions = ["2.5.1"]\n'
WRONG = [
    'channel = []\n', START, START + CHANNEL + 'colour = "red"\n', START.replace('LAB', 'L B') + CHANNEL,
    START.replace('name', 'nam') + CHANNEL, START + CHANNEL.replace('["P"]', '["X"]'), START + CHANNEL.replace('["ADT"]', '["adt"]'),
    START + CHANNEL.replace('["ADT"]', '["ADT^A01^ADT_A01"]'), START.replace(' }', ', attempts = 0 }') + CHANNEL,
    START.replace(' }', ', timeout = 3601 }') + CHANNEL, START.replace(' }', ', await = "AA" }') + CHANNEL,
    START + CHANNEL + 'filter = { equals = ["PV1", "I"] }\n', START + CHANNEL + 'filter = { equals = ["PV1-2"] }\n',
    START + CHANNEL + 'filter = { like = ["PV1-2", "I"] }\n', START + CHANNEL + 'steps = [{ set = ["MSH-10", "X"] }]\n',
    START + CHANNEL + 'steps = [{ remove = "MSH" }]\n', START + CHANNEL + 'steps = [{ lookup = "PID-8" }]\n',
    START + CHANNEL + '[[channel.route]]\nfilter = { exists = "PV1-2" }\n',
]


def path(rng):
    """A random path, sometimes a wrong one."""
    segment = rng.choice(['PID', 'PV1', 'OBX', 'ZX1', 'MSH', 'MS', 'pid'][:rng.choice([5, 5, 5, 7])])
    text = segment + rng.choice(['', '', '[2]', '[0]'][:rng.choice([3, 3, 4])]) + f'-{rng.choice([1, 2, 3, 9, 10, 11, 999, 0, 1000][:rng.choice([7, 7, 9])])}'
    return text + rng.choice(['', '', '[1]', '.1', '.2.3', '[2].4', '.1.2.3'][:rng.choice([6, 6, 7])])


def condition(rng, depth=0):
    kind = rng.choice(['equals', 'starts', 'contains', 'one_of', 'exists', 'all', 'any', 'not'][:5 if depth > 3 else 8])
    if kind in ('equals', 'starts', 'contains'):
        return f'{{ {kind} = ["{path(rng)}", "{rng.choice(["I", "", "A^B"])}"] }}'
    if kind == 'one_of':
        return f'{{ one_of = ["{path(rng)}", ["I", "E"]] }}'
    if kind == 'exists':
        return f'{{ exists = "{path(rng)}" }}'
    if kind == 'not':
        return f'{{ not = {condition(rng, depth + 1)} }}'
    return f'{{ {kind} = [{", ".join(condition(rng, depth + 1) for _ in range(rng.randrange(3)))}] }}'


def step(rng):
    kind = rng.choice(['set', 'copy', 'clear', 'remove', 'lookup'])
    if kind == 'set':
        return f'{{ set = ["{path(rng)}", "X"] }}'
    if kind == 'copy':
        return f'{{ copy = ["{path(rng)}", "{path(rng)}"] }}'
    if kind == 'clear':
        return f'{{ clear = "{path(rng)}" }}'
    if kind == 'remove':
        return f'{{ remove = "{rng.choice(["ZX1", "NK1", "MSH", "nk1"][:rng.choice([2, 2, 4])])}" }}'
    return f'{{ lookup = "{path(rng)}", table = [["1", "M"], ["2", "F"]]{rng.choice(["", ", default = " + chr(34) + "U" + chr(34)])} }}'


def made(rng):
    """A random plan. About one in five is valid."""
    lines = []
    for n in range(rng.randrange(1, 4)):
        lines += ['[[destination]]', f'name = "D{n}"', f'address = "127.0.0.1:{6000 + n}"']
        lines += [f'{key} = {rng.choice(values)}' for key, values in
                  (('attempts', [1, 3, 100, 101]), ('interval', [0, 86_400, -1]), ('timeout', [1, 3_600, 0]), ('await', ['"ack"', '"none"']))
                  if rng.random() < 0.3]
    for n in range(rng.randrange(1, 3)):
        lines += ['[[channel]]', f'name = "C{n}"', f'listen = "127.0.0.1:{7000 + n}"',
                  f'types = {rng.choice(["[]", "[" + chr(34) + "ADT" + chr(34) + "]", "[" + chr(34) + "ADT^A01" + chr(34) + "]", "[" + chr(34) + "*" + chr(34) + "]"])}',
                  f'processing = {rng.choice(["[" + chr(34) + "P" + chr(34) + "]", "[]"])}', 'versions = ["2.5.1"]']
        if rng.random() < 0.5:
            lines.append(f'filter = {condition(rng)}')
        if rng.random() < 0.5:
            lines.append(f'steps = [{", ".join(step(rng) for _ in range(rng.randrange(3)))}]')
        for to in rng.sample(range(3), rng.randrange(3)):
            lines += ['[[channel.route]]', f'to = "D{to}"']
            if rng.random() < 0.5:
                lines.append(f'filter = {condition(rng)}')
    return '\n'.join(lines) + '\n'


def schema():
    """A validator for the schema, or None if jsonschema isn't installed."""
    try:
        import jsonschema  # pylint: disable=import-outside-toplevel
    except ImportError:
        print('plan.schema.json: not compared, the package jsonschema is not installed')
        return None
    with open(os.path.join(HERE, 'plan.schema.json'), encoding='utf-8') as file:
        return jsonschema.Draft202012Validator(json.load(file))


def examples():
    """Yields the name and the text of each plan in examples/."""
    for at, _, names in os.walk(os.path.join(HERE, 'examples')):
        for name in sorted(names):
            if name.endswith('.toml'):
                with open(os.path.join(at, name), encoding='utf-8') as file:
                    yield name, file.read()


def main():
    program, validator = os.path.abspath(sys.argv[1] if len(sys.argv) > 1 else PROGRAM), schema()
    rng, found, right, refused = random.Random(5), [], 0, 0
    plans = list(examples())
    if validator:
        plans += [(f'plan {n} at random', made(rng)) for n in range(300)] + [(f'wrong plan {n}', text) for n, text in enumerate(WRONG)]
    with tempfile.TemporaryDirectory() as folder:
        at = os.path.join(folder, 'plan.toml')
        for name, text in plans:
            with open(at, 'w', encoding='utf-8') as file:
                file.write(text)
            done = subprocess.run([program, 'check', at], capture_output=True, timeout=30, check=False)
            if name.endswith('.toml') and done.returncode != 0:
                found.append(f'{name}: check refuses it')
            accepts = not validator or not list(validator.iter_errors(tomllib.loads(text)))
            right += done.returncode == 0
            refused += done.returncode != 0 and not accepts
            if done.returncode == 0 and not accepts:
                found.append(f'{name}: check accepts it, the schema does not\n{text}')
            if name.startswith('wrong') and (done.returncode == 0 or accepts):
                found.append(f'{name}: check {done.returncode}, the schema {"accepts" if accepts else "refuses"}\n{text}')
    print(f'plans: {right} right ones, {refused} wrong ones that the schema refuses, {"as it should be" if not found else "WRONG"}')
    for line in found:
        print(line)
    return 1 if found else 0


if __name__ == '__main__':
    sys.exit(main())
