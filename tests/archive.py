#!/usr/bin/env python3
"""Packs the built service twice by './build --archive', and looks that both archives are the same, that the checksum is right, that
what is unpacked runs, and that a program which is not proved is refused. Plain Python 3, no packages.

Usage: tests/archive.py [PROGRAM]

PROGRAM is the built service, by default crates/hl7_service/out/hl7_service. The exit status is 0 if all is as it has to be, else 1.
"""
import hashlib
import os
import subprocess
import sys
import tarfile
import tempfile

TOP = os.path.dirname(os.path.dirname(os.path.abspath(__file__)))
PROGRAM = os.path.join(TOP, 'crates', 'hl7_service', 'out', 'hl7_service')
MEMBERS = ('LOGIC', 'README.md', 'bin/hl7_service', 'bin/hl7ctl', 'docs/OPERATIONS.md', 'examples/service/hl7-service.service',
           'examples/service/alerts.yml', 'examples/hospital.toml', 'peers/send.py', 'plan.schema.json')


def called(*words):
    """The exit status of a command, and what it printed."""
    done = subprocess.run(words, stdin=subprocess.DEVNULL, capture_output=True, text=True, check=False)
    return done.returncode, done.stdout


def pack(program, folder):
    """The bytes of the archive that is packed into the folder, and its path; None where it is refused."""
    status, printed = called(os.path.join(TOP, 'build'), '--archive', folder, '--of', program)
    if status != 0:
        return None, None
    with open(printed.splitlines()[-1], 'rb') as file:
        return file.read(), printed.splitlines()[-1]


def unpacked(path, folder, version):
    """What is wrong with what is unpacked."""
    with tarfile.open(path) as tar:
        tar.extractall(folder, **({'filter': 'data'} if hasattr(tarfile, 'data_filter') else {}))
    (top,) = os.listdir(folder)
    top = os.path.join(folder, top)
    found = [f'{member} is not in the archive' for member in MEMBERS if not os.path.isfile(os.path.join(top, member))]
    program = os.path.join(top, 'bin', 'hl7_service')
    if called(program, '--version') != (0, version):
        found.append('the unpacked program prints another version')
    status, _ = called(program, 'check', os.path.join(top, 'examples', 'hospital.toml'))
    if status != 0:
        found.append(f"the unpacked program's check of the unpacked plan ends with {status}")
    with open(os.path.join(top, 'LOGIC'), encoding='utf-8') as file:
        return found if file.read() == version else [*found, 'LOGIC is not what --version prints']


def main():
    program = os.path.abspath(sys.argv[1] if len(sys.argv) > 1 else PROGRAM)
    with tempfile.TemporaryDirectory() as folder:
        fake = os.path.join(folder, 'unproved')
        with open(fake, 'wb') as file:
            file.write(b'AddressSanitizer')
        found = [] if pack(fake, folder) == (None, None) else ['a program that is not proved was packed']
        with open(program, 'rb') as file:
            if b'AddressSanitizer' in file.read():
                print('an archive is made of a proved program alone: the rest is skipped')
                print('\n'.join(found) or 'well')
                return 1 if found else 0
        (first, path), (second, _) = pack(program, os.path.join(folder, 'a')), pack(program, os.path.join(folder, 'b'))
        if not first or first != second:
            found.append('two archives of one program differ')
        with open(path + '.sha256', encoding='ascii') as file:
            if file.read() != f'{hashlib.sha256(first).hexdigest()}  {os.path.basename(path)}\n':
                found.append('the checksum is not that of the archive')
        _, version = called(program, '--version')
        found += unpacked(path, os.path.join(folder, 'out'), version)
    print('\n'.join(found) or 'an archive is packed, unpacked and run: well')
    return 1 if found else 0


if __name__ == '__main__':
    sys.exit(main())
