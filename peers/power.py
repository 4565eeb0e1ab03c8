"""What a power cut may leave of the files in a folder and in those in it: each write that a sync has covered is there, and each later
one is lost, kept or torn. peers/power.c, a library that is loaded into the program, notes its calls on these files."""
import copy
import os
import shutil
import struct
import subprocess
from collections import Counter

# A disk writes whole sectors: a torn write leaves some of them.
SECTOR = 512
HEADER = struct.Struct('<5q')
WRITE, LENGTH, SYNC, MADE, FOLDER, RENAMED, UNLINKED, RETURNED = (ord(letter) for letter in 'wtscfrud')
NAMES = (MADE, FOLDER, RENAMED, UNLINKED)
# What may become of a call that changed something.
FATES = ('covered by a sync', 'kept', 'torn', 'lost')
COVERED, KEPT, TORN, LOST = FATES


class Call:
    """A call on a file or a name of the folder: where the log has its two records, and what it returned. `end` is None where it had not
    returned when the process was killed."""

    def __init__(self, kind, number, at, data, begin):
        self.kind, self.number, self.at, self.data, self.begin = kind, number, at, data, begin
        self.end, self.result = None, None

    def has_happened(self):
        """Whether it may have changed something, wholly or in part."""
        return self.kind != SYNC and self.result != -1 and not (self.kind == WRITE and self.result == 0)

    def written(self):
        """The bytes that a write has put into the file."""
        return self.data if self.result is None else self.data[:self.result]


def library(folder):
    """Compiles power.c into a folder. The path of the library, or None where there is no C compiler."""
    compiler = shutil.which('cc') or shutil.which('gcc') or shutil.which('clang')
    if compiler is None:
        return None
    path = os.path.join(folder, 'power.so')
    source = os.path.join(os.path.dirname(os.path.abspath(__file__)), 'power.c')
    subprocess.run([compiler, '-shared', '-fPIC', '-O1', '-pthread', '-o', path, source], check=True, timeout=60)
    return path


def noting(path, folder, log, name='', number=0):
    """The environment of a program whose calls on the files of a folder are noted in a log. With a number it kills itself in its call of
    that number on the file of that name."""
    return dict(os.environ, LD_PRELOAD=path, POWER_FOLDER=os.path.realpath(folder), POWER_LOG=log, POWER_NAME=name,
                POWER_CALL=str(number))


def calls_in(log, size=-1):
    """The calls that a log has, or that its first bytes have, in order. What a kill has cut off at its end is left out. There is no log
    where the program was killed before its first instruction."""
    if not os.path.exists(log):
        return []
    with open(log, 'rb') as file:
        held = file.read(size)
    calls, made, at, index = {}, Counter(), 0, 0
    while at + HEADER.size <= len(held):
        kind, serial, number, place, size = HEADER.unpack_from(held, at)
        at += HEADER.size
        if at + size > len(held):
            break
        if kind == RETURNED:
            # An inode number may be given again: what is made has it with how often that was.
            is_made = calls[serial].kind in (MADE, FOLDER) and number >= 0
            made[number] += is_made
            calls[serial].end, calls[serial].result = index, (number, made[number]) if is_made else number
        else:
            calls[serial] = Call(kind, (number, made[number]), place, held[at:at + size], index)
        at, index = at + size, index + 1
    return list(calls.values())


class Files:
    """The files of a folder and of those in it by number, and their names: how their paths go on from the folder's. The number of a
    file or of a folder is that of its inode, and how often it was given anew."""

    def __init__(self, folder):
        self.folders, self.names, self.contents = {}, {}, {}
        for path, _, names in os.walk(folder):
            self.folders['' if path == folder else os.path.relpath(path, folder)] = os.stat(path).st_ino, 0
            for name in names:
                with open(os.path.join(path, name), 'rb') as file:
                    number = os.stat(file.fileno()).st_ino, 0
                    self.names[os.path.relpath(os.path.join(path, name), folder)] = number
                    self.contents[number] = bytearray(file.read())

    def by_name(self):
        """The bytes of each file."""
        return {name: bytes(self.contents.get(number, b'')) for name, number in self.names.items()}

    def name(self, call):
        """Does what a call on a name does."""
        name, _, new = call.data.decode().partition('\n')
        if call.kind == MADE:
            self.names[name] = call.result
        elif call.kind == FOLDER:
            self.folders[name] = call.result
        elif call.kind == RENAMED and name in self.names:
            self.names[new] = self.names.pop(name)
        elif call.kind == UNLINKED:
            self.names.pop(name, None)

    def resize(self, number, size):
        """Sets the length of a file; what is new are zeros."""
        held = self.contents.setdefault(number, bytearray())
        del held[size:]
        held.extend(bytes(size - len(held)))

    def write(self, number, at, data):
        """Writes into a file. What lies between its end and the place are zeros."""
        held = self.contents.setdefault(number, bytearray())
        held.extend(bytes(max(0, at - len(held))))
        held[at:at + len(data)] = data

    def make(self, call):
        """Does what a call did."""
        if call.kind in NAMES:
            self.name(call)
        elif call.kind == LENGTH:
            self.resize(call.number, call.at)
        else:
            self.write(call.number, call.at, call.written())


def pieces(call):
    """The parts of a write that lie in one sector each: their offsets and bytes."""
    data, at, parts = call.written(), call.at, []
    while data:
        size = SECTOR - at % SECTOR
        parts.append((at, data[:size]))
        data, at = data[size:], at + size
    return parts


def covered(calls, folders):
    """Whether a sync that returned has covered a call: a function of the call. A call on a name is covered by a sync of one of the
    folders with these numbers, or of one that was made."""
    last, folders = {}, {*folders, *(call.result for call in calls if call.kind == FOLDER)}
    for call in calls:
        if call.kind == SYNC and call.result == 0:
            last[call.number] = max(last.get(call.number, -1), call.begin)

    last_names = max((last.get(number, -1) for number in folders), default=-1)

    def is_covered(call):
        return call.end is not None and call.end < (last_names if call.kind in NAMES else last.get(call.number, -1))
    return is_covered


def tear(files, call, chance):
    """Does a part of a write: each of its sectors is there or not, or the first ones alone are. Where it made the file longer, the file
    may be so long all the same, with zeros in it."""
    parts, end = pieces(call), call.at + len(call.written())
    if chance.random() < 0.5:
        parts = parts[:chance.randrange(1, len(parts))]
    else:
        parts = [part for part in parts if chance.random() < 0.5]
    for at, data in parts:
        files.write(call.number, at, data)
    if chance.random() < 0.5:
        files.resize(call.number, max(end, len(files.contents.get(call.number, b''))))


def cut(files, calls, chance):
    """Makes of files as they were at the start of a program what a power cut may leave after its calls. Returns how many of them were
    covered by a sync, kept, torn and lost. Calls on names are kept up to one, as a journal of a file system has them."""
    is_covered, counts = covered(calls, files.folders.values()), Counter()
    made = [call for call in calls if call.has_happened()]
    loss = chance.choice((0.0, 1.0, chance.random(), chance.random(), chance.random()))
    loose_names = sum(call.kind in NAMES and not is_covered(call) for call in made)
    kept_names = chance.randrange(loose_names + 1)
    for call in made:
        if is_covered(call):
            fate = COVERED
        elif call.kind in NAMES:
            fate, kept_names = (KEPT if kept_names > 0 else LOST), kept_names - 1
        elif chance.random() < loss:
            fate = LOST
        else:
            fate = TORN if call.kind == WRITE and len(pieces(call)) > 1 and loss > 0 and chance.random() < 0.5 else KEPT
        counts[fate] += 1
        if fate == TORN:
            tear(files, call, chance)
        elif fate != LOST:
            files.make(call)
    return counts


def differ(held, due, call):
    """Whether bytes differ, but for those of a write that had not returned, if there is one."""
    if call is None or call.kind != WRITE:
        return held != due
    begin, end = call.at, call.at + len(call.data)
    return held[:begin] != due[:begin] or held[end:] != due[end:]


def unnoted(before, calls, folder):
    """What the files of a killed program have that its noted calls, made on them as they were at its start, don't explain: a call that
    power.c doesn't know would show here."""
    files = copy.deepcopy(before)
    under_way = {call.number: call for call in calls if call.end is None and call.has_happened()}
    for call in calls:
        if call.has_happened():
            files.make(call)
    if any(call.kind != WRITE for call in under_way.values()):
        return []
    found, wrong = Files(folder), []
    for name in found.names.keys() ^ files.names.keys():
        wrong.append(f'{name} is {"there" if name in found.names else "not there"}')
    for name in found.names.keys() & files.names.keys():
        held, due = found.contents[found.names[name]], files.contents.get(files.names[name], b'')
        if differ(held, due, under_way.get(files.names[name])):
            wrong.append(f'{name} has {len(held)} bytes, and not the {len(due)} that were noted')
    return wrong


def put(files, folder):
    """Writes files into a new folder."""
    for name in sorted(files.folders):
        os.mkdir(os.path.join(folder, name) if name else folder, 0o700)
    for name, held in files.by_name().items():
        with open(os.path.join(folder, name), 'wb') as file:
            file.write(held)
        os.chmod(os.path.join(folder, name), 0o600)
