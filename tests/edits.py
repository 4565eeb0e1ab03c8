#!/usr/bin/env python3
"""Tries the wrong bodies of crates/NAME/must-fail/*.edit: the prover has to refuse each of them.

Usage: tests/edits.py [--apply] [--alone] [--anew] [--built FOLDER] [NAME | NAME/EDIT]..

`rt ci` tries one edit at a time, over a crate that it proves once more for that. Here many edits of a crate are applied to one
copy, each in a function of its own, and the prover is asked for these functions. The proofs of the others are left out of the
copy, but for those that a proof cites: that they are proved is `rt ci`'s to say. An edit counts as refused where its own function
isn't proved for a reason of its own, which is never that it calls a function that isn't proved: a proof rests on the function's
own body and on the contracts of what it calls, and an edit changes no contract. Where a function whose proof wasn't left out and
that no edit touches isn't proved, the check counts for nothing, and is made again with all proofs. What is left is tried alone,
and over the whole crate.

An edit of a constant is tried by itself, and over the whole crate unless a line 'by: PATH' of it names the function, below the
crate, whose proof refuses it.

--apply     only whether each edit can be applied: each of its texts is in the file once
--alone     one edit at a time
--anew      also those that an earlier run on this machine has refused, and of which nothing has changed since (tests/kept.py)
--built     where the crates' libraries lie, built: a folder with crates/NAME/out/rlib; the repository by default

The number of checks beside one another is RT_JOBS, by default the number of processors. The last line is 'N passed, M failed'.
Plain Python 3.
"""

import collections
import functools
import os
import re
import shutil
import subprocess
import sys
import tempfile
import threading

from kept import Kept

ROOT = os.path.dirname(os.path.dirname(os.path.abspath(__file__)))
PARTS = ('src', 'specs', 'proofs')
CLAUSE = re.compile(r'\b(?:requires|ensures|ghost|invariant|decreases)\b')
TYPE = re.compile(r'(?m)^\s*(?:pub(?:\([a-z]+\))?\s+)?(?:struct|enum)\s+(\w+)')
GIVEN = re.compile(r"(?<!['\w])(?:dyn )?([A-Za-z]\w*)")  # the words of an impl's parameters, without lifetimes
FUNCTION = re.compile(r'^(?P<indent>\s*)(?:#\[[^\]]*\]\s*)*(?:pub(?:\([a-z]+\))?\s+)?(?:const\s+)?(?:unsafe\s+)?fn\s+(?P<name>\w+)')
BLOCK = re.compile(r'^(?P<indent>\s*)(?:pub(?:\([a-z]+\))?\s+)?(?:unsafe\s+)?(?P<kind>impl|trait|mod)\b(?P<rest>.*)')
# A proof that names what an edit took away says little of the contract; one that rests on another that isn't there says nothing.
NAMES = re.compile(r'has no field|is not in scope|has no `')
RESTS = re.compile(r'was not admitted|which was rejected')
MET = re.compile(r'\bproofs\.([\w.+]+?)\.Met\b')
NO_FUNCTION = re.compile(r'rattle: error: `\w+` has no function `(\S+?)`')
UNREAD_PROOF = re.compile(r'\./proofs/(\S+)/Proof\.antt: error(?:\[reserved-name\])?: rattle (?:does not read this file|generates the module)')
CYCLE = re.compile(r'\s*#\[cycle\((\w+)\)\]')
UNREADABLE = re.compile(r'\A(?:\./)?(?:src|specs)/\S+?:\d+:\d+: error: (?!`)')

ROOM = 9_000_000_000  # what has to be free before a crate's edits are begun beside `rt ci`, in bytes
PAUSE = 10  # seconds until that is looked at again

Change = collections.namedtuple('Change', 'file old new function line')


def memory_free():
    """How much memory there is to use, in bytes."""
    with open('/proc/meminfo', encoding='ascii') as it:
        return 1024 * int(re.search(r'MemAvailable:\s+(\d+)', it.read())[1])


class Edit:
    """An edit of a crate: its name, its changes, and the functions in which they lie."""

    def __init__(self, crate, name, changes, by):
        self.crate, self.name, self.changes = crate, name, changes
        own = [it for it in changes if not it.old.startswith('use ')]
        self.functions = {it.function or by for it in own} - {None}
        self.places = {(it.file, it.line) for it in changes}
        self.is_single = any(it.function is None for it in own)

    def __str__(self):
        return f'{self.crate}/{self.name}'


class Bad(Exception):
    """An edit that can't be applied."""


def without_generics(text):
    """The text without what stands between < and >."""
    out, depth = '', 0
    for at, char in enumerate(text):
        if char == '<':
            depth += 1
        elif char == '>' and text[at - 1] != '-':
            depth -= 1
        elif not depth:
            out += char
    return out


def named(kind, rest):
    """The name that an impl, a trait or a module has in a function's path, and the type whose impl it is, if any."""
    rest, own = rest.partition('{')[0].partition(' where ')[0].strip(), []
    if kind in ('trait', 'mod'):
        return re.match(r'\w+', rest)[0], None
    if rest.startswith('<'):
        depth = 0
        for at, char in enumerate(rest):
            depth += (char == '<') - (char == '>')
            if not depth:
                own = re.findall(r'[<,]\s*(\w+)', rest[:at])
                rest = rest[at + 1:].strip()
                break
    trait, is_for, what = rest.rpartition(' for ')
    last = lambda it: re.findall(r'\w+', without_generics(it))[-1]
    if not is_for:
        return last(what), last(what)
    given = lambda it: ''.join(f'{word[:1].upper()}{word[1:]}' for word in GIVEN.findall(it.partition('<')[2]) if word not in own)
    return last(what) + given(what) + last(trait.partition('<')[0]) + given(trait), last(what)


def module_of(file):
    """The path of a file's module, as a list."""
    own = os.path.splitext(file)[0].split('/')[1:]
    return own[:-1] if own[-1] in ('lib', 'main') else own


@functools.lru_cache(maxsize=None)
def types_of(folder):
    """The module in which each type of a crate is declared."""
    found = {}
    for at, _, names in os.walk(f'{folder}/src'):
        for name in names:
            path = os.path.relpath(f'{at}/{name}', folder)
            with open(f'{at}/{name}', encoding='utf-8') as it:
                for declared in TYPE.findall(it.read()):
                    found[declared] = module_of(path)
    return found


def function_at(folder, file, lines, number):
    """The path below the crate of the function in whose body the line lies, and the line of its head."""
    own, above, head, indent = module_of(file), [], None, None
    for at in range(number, -1, -1):
        found = FUNCTION.match(lines[at])
        if head is None and found:
            head, indent, above = at, len(found['indent']), [found['name']]
        elif head is not None and indent:
            block = BLOCK.match(lines[at])
            if block and len(block['indent']) < indent:
                text = block['rest']
                for more in lines[at + 1:at + 8]:
                    if '{' in text:
                        break
                    text += ' ' + more.strip()
                name, subject = named(block['kind'], text)
                above, indent = [name, *above], len(block['indent'])
                own = types_of(folder).get(subject, own)
    if head is None:
        return None, number
    return '::'.join([*own, *above]), head


def has_body(lines, number):
    """Whether the function whose head is at this line has a body: a method that a trait only declares has none."""
    for line in map(str.strip, lines[number:]):
        if line in ('{', '{}') or line.endswith(' {') and not CLAUSE.match(line):
            return True
        if line.endswith(';'):
            return False
    return False


def cycle_of(lines, number):
    """The name of the cycle of functions that the function whose head is at this line is in, and None for most."""
    while number > 0 and lines[number - 1].strip().startswith(('#[', '///', '//')):
        number -= 1
        found = CYCLE.match(lines[number])
        if found:
            return found[1]
    return None


def functions_of(folder):
    """The paths of all functions of a crate that have a body and are proved by themselves, as far as they are written in its
    files; of no tests."""
    found = set()
    for at, _, names in os.walk(f'{folder}/src'):
        for name in names:
            path = os.path.relpath(f'{at}/{name}', folder)
            with open(f'{at}/{name}', encoding='utf-8') as it:
                lines = it.read().split('\n')
            heads = [number for number, line in enumerate(lines)
                     if FUNCTION.match(line) and has_body(lines, number) and not cycle_of(lines, number)]
            found |= {function_at(folder, path, lines, number)[0] for number in heads}
    return {it for it in found if 'tests' not in it.split('::')}


def cited(folder):
    """The paths of the functions whose proofs another proof of the crate cites."""
    found = set()
    for at, _, names in os.walk(f'{folder}/proofs'):
        for name in names:
            with open(f'{at}/{name}', encoding='utf-8') as it:
                found |= {path.replace('.', '::') for path in MET.findall(it.read())}
    return found


def read_edit(folder, crate, name):
    """The edit of a file, or Bad."""
    path, old, by, changes = None, None, None, []
    with open(f'{folder}/must-fail/{name}.edit', encoding='utf-8') as it:
        text = it.read()
    for line in text.split('\n'):
        if line.startswith('file: '):
            path = line[len('file: '):].strip()
        elif line.startswith('by: '):
            by = line[len('by: '):].strip()
        elif line.startswith('old: '):
            old = line[len('old: '):]
        elif line.startswith('new:'):
            if path is None or old is None:
                raise Bad("a 'new:' before any 'file:' or 'old:'")
            changes.append(located(folder, path, old, line[len('new:'):].removeprefix(' ')))
            old = None
    if not changes:
        raise Bad("no 'old:' and 'new:'")
    return Edit(crate, name, changes, by)


def located(folder, path, old, new):
    """The change with the function in which it lies."""
    if not path.startswith('src/'):
        raise Bad(f'{path} is no file of code')
    try:
        with open(f'{folder}/{path}', encoding='utf-8') as it:
            code = it.read()
    except OSError:
        raise Bad(f'there is no file {path}') from None
    if code.count(old) != 1:
        raise Bad(f"an 'old:' text is in {path} {code.count(old)} times, and not once")
    if CLAUSE.search(old + new):
        raise Bad('it changes a clause, and so more than one function')
    lines = code.split('\n')
    function, line = function_at(folder, path, lines, code.count('\n', 0, code.index(old)))
    # (functions of one cycle are proved together)
    return Change(path, old, new, function, cycle_of(lines, line) or line)


def rows_of(root):
    """What each crate names, by crates.txt, lowest first."""
    rows = {}
    with open(f'{root}/crates.txt', encoding='utf-8') as it:
        for line in it:
            head, is_row, names = line.partition(':')
            if is_row and head.strip() and not head.startswith('#'):
                rows[head.split()[0]] = names.split()
    return rows


def leave_out(room, functions):
    """Takes the proofs of these functions out of a copy of a crate: whether they are proved is not asked there."""
    for path in functions:
        folder = f'{room}/proofs/{path.replace("::", "/")}'
        os.makedirs(folder, exist_ok=True)
        for name in ('Answers.antt', 'Invariants.antt'):
            if os.path.exists(f'{folder}/{name}'):
                os.remove(f'{folder}/{name}')
        with open(f'{folder}/Proof.antt', 'w', encoding='utf-8') as it:
            it.write('-- left out\n')


class Prover:
    """Calls the prover over the libraries that `rt ci` has built."""

    def __init__(self, built):
        kit = os.path.dirname(subprocess.run(['rt', 'doc'], capture_output=True, text=True, check=True).stdout.strip())
        self.kit, self.built, self.rows = kit, built, rows_of(ROOT)
        self.unread = collections.defaultdict(set)  # by crate: functions of which the prover reads no such proof
        self.whole = set()  # the crates of which no proof is left out

    def below(self, crate, found=None):
        """The repository's crates below a crate, each after those that it names."""
        found = [] if found is None else found
        for it in self.rows[crate]:
            if it in self.rows and it not in found:
                self.below(it, found)
                found.append(it)
        return found

    def words(self, crate):
        """The words that name a crate's libraries to the prover, as `rt ci` gives them."""
        library = lambda it: f'{self.built}/crates/{it}/out/rlib'
        is_program = os.path.isfile(f'{ROOT}/crates/{crate}/src/main.rt')
        words = ['--crate-name', crate, 'src/main.rt' if is_program else 'src/lib.rt']
        for it in ['std', *(it for it in self.rows[crate] if it not in self.rows)]:
            words += ['--extern', f'{it}={self.kit}/rlibs/{it}.rlib']
        words += ['-L', f'dependency={self.kit}/rlibs']
        for it in self.rows[crate]:
            if it in self.rows:
                words += ['--extern', f'{it}={library(it)}/{it}.rlib']
        for it in self.below(crate):
            words += ['-L', f'dependency={library(it)}']
        words += ['--antt-project', f'{self.kit}/rattle/logic/antt-project.json', '--logic-built', f'{self.kit}/logic_built']
        return [*words, '--links', f'{crate}=', '--jobs', '1']

    def left_out(self, crate, only):
        """The functions whose proofs are left out where only these are asked for."""
        folder = f'{ROOT}/crates/{crate}'
        if crate in self.whole:
            return set()
        return functions_of(folder) - cited(folder) - self.unread[crate] - set(only)

    def check(self, crate, edits, only, kept):
        """What the prover says of a copy of the crate with the edits, and its exit status."""
        said, status = self.check_once(crate, edits, only, kept)
        unread = {it[1].replace('/', '::') for it in map(UNREAD_PROOF.match, said) if it}
        if unread and not unread <= self.unread[crate]:
            self.unread[crate] |= unread
            return self.check(crate, edits, only, kept)
        return said, status

    def check_once(self, crate, edits, only, kept):
        with tempfile.TemporaryDirectory(prefix='rt-edit-') as room:
            for part in PARTS:
                if os.path.isdir(f'{ROOT}/crates/{crate}/{part}'):
                    shutil.copytree(f'{ROOT}/crates/{crate}/{part}', f'{room}/{part}')
            for change in (it for edit in edits for it in edit.changes):
                with open(f'{room}/{change.file}', encoding='utf-8') as it:
                    code = it.read()
                with open(f'{room}/{change.file}', 'w', encoding='utf-8') as it:
                    it.write(code.replace(change.old, change.new))
            if only:
                leave_out(room, self.left_out(crate, only))
            words = ['nice', '-n', '19', 'rattle', 'check', *self.words(crate), '--incremental', kept]
            for it in only:
                words += ['--only', it]
            ran = subprocess.run(words, cwd=room, stdin=subprocess.DEVNULL, stdout=subprocess.PIPE, stderr=subprocess.STDOUT,
                                 errors='replace')
        return ran.stdout.split('\n'), ran.returncode


def own_reason(line, said, crate, function):
    """Why a function isn't proved by itself, by its line, or None: not only because it calls another one that isn't."""
    verdict = line.partition(': ')[2]
    if verdict.startswith('no proof: ') and not verdict.startswith('no proof: it calls'):
        return line
    if not verdict.startswith('not proved'):
        return None
    module = function.replace('::', '/')
    errors = [it for it in said if re.match(rf'\./proofs/(fn/)?{re.escape(module)}/', it) and ': error: ' in it and not RESTS.search(it)]
    telling = [it for it in errors if not NAMES.search(it)]
    if telling:
        return telling[0]
    return f'{errors[0]} (a proof file names what the edit took away, so this says little)' if errors else None


def reason(said, crate, function):
    """Why the function, or a closure in it, isn't proved by itself, or None."""
    own = (f'fn {crate}::{function}: ', f'fn {crate}::fn::{function}::')
    return next(filter(None, (own_reason(it, said, crate, function) for it in said if it.startswith(own))), None)


def strays(said, crate, functions):
    """The functions but these that aren't proved by themselves: where there is one, something else is wrong."""
    own = tuple(it for function in functions for it in (f'{function}: ', f'fn::{function}::', f'{function}+'))
    found = []
    for line in said:
        # (functions of one cycle are proved together, in a folder whose name begins with +)
        if line.startswith(f'fn {crate}::') and '/+' not in line and not line.removeprefix(f'fn {crate}::').startswith(own):
            function = line.removeprefix(f'fn {crate}::').partition(': ')[0].removeprefix('fn::')
            found += [line] if own_reason(line, said, crate, function) else []
    return found


def next_batch(edits, most):
    """Edits that may be tried together: each in functions of its own. One outside of any function is tried by itself."""
    taken, batch = set(), []
    for edit in edits:
        if not edit.is_single and not edit.places & taken and len(batch) < most:
            batch.append(edit)
            taken |= edit.places
    return batch or edits[:1]


class Trial:
    """The trial of one crate's edits."""

    def __init__(self, prover, crate, edits, alone):
        self.prover, self.crate, self.left, self.alone = prover, crate, list(edits), alone
        self.checks = 0
        self.found = {}  # the edit's name: whether it is refused, and why

    def run(self):
        """Tries the edits, and returns what was found."""
        with tempfile.TemporaryDirectory(prefix='rt-edits-') as kept:
            # A batch of which nothing can be judged is halved: one edit that can't be read takes the others with it.
            most = 1 if self.alone else len(self.left)
            while self.left:
                batch = next_batch(self.left, most)
                got_on = self.judge(batch, kept)
                if not self.alone:
                    most = 2 * most if got_on else max(1, len(batch) // 2)
        return self.found

    def judge(self, batch, kept):
        """Tries a batch, and returns whether that got on: an edit is settled, or is known to have no function of that path."""
        only = sorted({it for edit in batch for it in edit.functions})
        said, status = self.prover.check(self.crate, batch, only, kept) if only else ([], 1)
        self.checks += bool(only)
        unknown = {it[1] for it in map(NO_FUNCTION.match, said) if it and status == 2}
        touched = [it for it in batch if it.functions & unknown]
        for edit in touched:
            edit.is_single = True
            edit.functions -= unknown
        if touched:
            return True
        has_strays = strays(said, self.crate, [*only, *self.prover.left_out(self.crate, only)])
        if has_strays and self.crate not in self.prover.whole:
            self.prover.whole.add(self.crate)
            return True
        settled = [] if has_strays else [it for it in batch if self.refused(it, said)]
        if len(batch) == 1 and not settled:
            said, status = self.prover.check(self.crate, batch, [], kept)
            self.checks += 1
            return self.judge_whole(batch[0], said, status)
        for edit in settled:
            why = next(filter(None, (reason(said, self.crate, it) for it in sorted(edit.functions))))
            self.settle(edit, True, why)
        return bool(settled)

    def refused(self, edit, said):
        return any(reason(said, self.crate, it) for it in edit.functions)

    def judge_whole(self, edit, said, status):
        """Judges an edit by the whole crate, as `rt ci` does."""
        last = [it for it in said if it][-1:]
        unread = next((it for it in said if UNREADABLE.match(it)), None)
        if unread:
            self.settle(edit, False, f'the prover cannot read the edited text: {unread}')
        elif status == 1 and last and last[0].startswith('logic=not-proved'):
            other = next((it for it in said if it.startswith('fn ') and ': proved' not in it), 'the crate is not proved')
            self.settle(edit, True, f'by another function: {other}')
        elif status == 0:
            self.settle(edit, False, 'the crate is still proved')
        else:
            self.settle(edit, False, f'it did not reach the prover: {" ".join(said[:4])}')
        return True

    def settle(self, edit, is_refused, why):
        self.left.remove(edit)
        self.found[edit.name] = is_refused, why


def edits_of(crate, only):
    """The edits of a crate, and what is wrong with those that can't be applied."""
    folder = f'{ROOT}/crates/{crate}'
    good, bad = [], []
    names = sorted(os.listdir(f'{folder}/must-fail')) if os.path.isdir(f'{folder}/must-fail') else []
    for name in (it[:-len('.edit')] for it in names if it.endswith('.edit')):
        if only and f'{crate}/{name}' not in only and crate not in only:
            continue
        try:
            good.append(read_edit(folder, crate, name))
        except Bad as why:
            bad.append(f'{crate}/{name}: BAD EDIT: {why}')
    return good, bad


def read_all(names):
    """The edits of each crate that has some, and what is wrong with those that can't be applied."""
    by_crate, failed = {}, []
    for crate in rows_of(ROOT):
        good, bad = edits_of(crate, names)
        failed += bad
        if good:
            by_crate[crate] = good
    return by_crate, failed


class Trials:
    """Trials of the edits of several crates, some beside one another, those of the crates with the most edits first."""

    def __init__(self, prover, by_crate, beside=None, alone=False, anew=False):
        self.prover, self.by_crate, self.alone = prover, by_crate, alone
        self.kept = Kept(ROOT, prover.built, prover.rows, anew)
        self.lanes = int(os.environ.get('RT_JOBS') or len(os.sched_getaffinity(0)))
        self.free = min(beside or self.lanes, self.lanes)
        self.held = self.lanes - self.free
        self.waiting, self.begun, self.failed = [], set(), []
        self.change = threading.Condition()
        self.ends = False
        self.threads = [threading.Thread(target=self.work, daemon=True) for _ in range(self.lanes)]
        for it in self.threads:
            it.start()

    def begin(self, crate):
        """Has the edits of a crate tried whose libraries are built."""
        with self.change:
            if crate in self.by_crate and crate not in self.begun:
                self.begun.add(crate)
                self.waiting.append(crate)
                self.waiting.sort(key=lambda it: len(self.by_crate[it]))
                self.change.notify_all()

    def end(self, whole=True):
        """Waits until all trials have ended, or only those under way, and returns the edits that were not refused."""
        for crate in self.by_crate if whole else []:
            self.begin(crate)
        with self.change:
            self.free += self.held
            self.ends = True
            if not whole:
                self.waiting.clear()
            self.change.notify_all()
        for it in self.threads:
            it.join()
        return self.failed

    def may_begin(self):
        """Whether a crate waits and there is room for its checks: beside `rt ci` also in memory."""
        return self.waiting and self.free and (self.ends or memory_free() > ROOM)

    def work(self):
        while True:
            with self.change:
                while not self.may_begin() and not (self.ends and not self.waiting):
                    self.change.wait(timeout=PAUSE)
                if not self.waiting:
                    return
                crate = self.waiting.pop()
                self.free -= 1
            kept = {it.name: self.kept.why(crate, it.name) for it in self.by_crate[crate]}
            trial = Trial(self.prover, crate, [it for it in self.by_crate[crate] if not kept[it.name]], self.alone)
            try:
                found = trial.run()
            except OSError as error:
                found = trial.found | {it.name: (False, f'it was not tried: {error}') for it in trial.left}
            for name in (name for name, (is_refused, _) in found.items() if is_refused):
                self.kept.keep(crate, name, found[name][1])
            with self.change:
                self.free += 1
                self.show(crate, found, {name: why for name, why in kept.items() if why}, trial.checks)
                self.change.notify_all()

    def show(self, crate, found, kept, checks):
        """Prints what was found and what was kept, and notes what was not refused."""
        for name, (is_refused, why) in sorted(found.items()):
            print(f'edit {crate}/{name}: {"refused" if is_refused else "NOT REFUSED"}: {why[:200]}')
            if not is_refused:
                self.failed.append(f'{crate}/{name}')
        for name, why in sorted(kept.items()):
            print(f'edit {crate}/{name}: refused by an earlier run on this machine: {why[:160]}')
        also = f', {len(kept)} by earlier runs on this machine' if kept else ''
        print(f'edits of {crate}: {len(found)} in {checks} checks{also}', flush=True)


def main():
    words, built = sys.argv[1:], ROOT
    if '--built' in words[:-1]:
        at = words.index('--built')
        built = os.path.abspath(words[at + 1])
        del words[at:at + 2]
    flags, names = {it for it in words if it.startswith('--')}, [it for it in words if not it.startswith('--')]
    if flags - {'--apply', '--alone', '--anew'}:
        sys.exit(f'usage: {__doc__.split("Usage: ")[1].splitlines()[0]}')
    by_crate, bad = read_all(names)
    for it in bad:
        print(it)
    count = sum(map(len, by_crate.values()))
    failed = [] if '--apply' in flags else Trials(
        Prover(built), by_crate, alone='--alone' in flags, anew='--anew' in flags).end()
    print(f'{count - len(failed)} passed, {len(failed) + len(bad)} failed')
    return 1 if failed or bad else 0


if __name__ == '__main__':
    sys.exit(main())
