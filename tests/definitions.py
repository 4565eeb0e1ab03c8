#!/usr/bin/env python3
"""Writes docs/DEFINITIONS.md: the definitions that the claims of docs/PROVED.md rest on, page by page in reading order.
Plain Python 3.

Usage: tests/definitions.py [--write]

A claim is one or several definitions of crates/*/specs. It rests on the definitions whose names its text uses, on those that
they use in turn, and so on. The pages of specs/ contain these definitions and no others; the pages of specs/inner/ contain what no
claim rests on: helpers of proofs, and definitions that a clause of a single call uses.

Without --write the page is compared with what would be written. The exit status is 1 if it differs; if a page of specs/ begins
without a heading, cites a page of specs/inner/, has a definition that no claim rests on, or one whose name another page of specs/
defines too; or if a page is missing from the reading order below.
"""
import collections
import glob
import os
import re
import sys

CRATES = os.path.join(os.path.dirname(os.path.abspath(__file__)), '..', 'crates')
PAGE = os.path.join(CRATES, '..', 'docs', 'DEFINITIONS.md')
# The pages in the order in which they are best read.
ORDER = (
    ('The promise', 'promise.Promise'),
    ('Framing and text', 'mllp_frame.Framing mllp_frame.Event er7_tree.Pieces er7_tree.Delims er7_tree.Tree er7_tree.Path '
     'er7_tree.Escape er7_tree.Edit'),
    ('Header, acknowledgments and moments', 'hl7_head.Header hl7_head.Msa hl7_head.Calendar hl7_head.Stamp hl7_head.Ack '
     'hl7_head.Laws ack_rule.Due'),
    ('Conditions and steps', 'hl7_filter.Condition hl7_filter.View hl7_transform.Check hl7_transform.Step'),
    ('The plan', 'plan_text.Entries plan_text.Document plan_text.Keys plan_text.Kinds plan_text.Fault '
     'plan_text.Destinations plan_text.Channels plan_text.Conditions plan_text.Steps'),
    ('What becomes of a text', 'judge_core.Judging judge_core.Delivering'),
    ('Events and history', 'event_log.Event event_log.History event_log.Answers event_log.Deployment event_log.Room '
     'event_log.Legal event_log.Replay dest_queue.States dest_queue.Slots dest_queue.Queues row_store.Rows '
     'event_log.Counting stat_count.Statistics stat_count.Sums'),
    ('The promise of a book, and its calls', 'book_core.Headline book_core.Receiving book_core.Refusing book_core.Sending'),
    ('What pruning leaves', 'event_log.Folding event_log.Alike'),
    ('Replies and serving', 'conn_core.Messages conn_core.Replies conn_core.Booking conn_worker.Serving conn_worker.Faults'),
    ('Delivering', 'delivery_worker.Stream delivery_worker.Answers delivery_worker.Delivering'),
    ('One history for all threads', 'ghost_log.Seats book_lock.Log book_lock.Outcomes book_lock.Shares book_lock.Callers '
     'conn_worker.Arriving delivery_worker.Turns delivery_worker.Sent'),
    ('Counts and audit', 'book_lock.Rises book_lock.Auditing'),
    ('What is durable', 'book_lock.Durable book_lock.Journal delivery_worker.Taking'),
    ('Arrivals that are held back', 'book_lock.Crowding'),
    ('The history as a journal', 'book_replay.Replay restart_laws.Restart'),
    ('A start', 'book_recovery.Seen book_recovery.Interrupting book_recovery.Adopted'),
    ('Every order of steps', 'engine_model.Turn engine_model.Run engine_model.Steps engine_model.Promise '
     'engine_model.Converse'),
    ('The store', 'event_store.Records event_file.Found'),
    ('The program', 'engine_report.Request engine_report.Words engine_report.Lines engine_report.Findings '
     'engine_report.Ending'),
)
# The claims of the promise, from the bytes of a sender to those of a destination.
PROMISE = (
    ('The promise', 'the law `ca_is_kept`: `empty_book`, `Arrival`, `IsPromised`, `IsHeld` and `IsPositive`, on top of all that follows',
     ['promise.Promise.*']),
    ('What a message is, and what becomes of it', 'under the headline and under serving alike: `verdict` and `key_of`',
     ['judge_core.Judging.verdict', 'judge_core.Judging.key_of']),
    ('The headline', '`KeepsItsPromise`, on top of these',
     ['book_core.Headline.KeepsItsPromise']),
    ('Replies', '`replies`, on top of what a message is',
     ['conn_core.Replies.replies']),
    ('Serving', 'the clauses `served`, `read_fault`, `write_fault` and `flushed` of `serve_within` and `answer_stream`: '
     '`ServesAndBooks`, `Serves`, `Books` and how faults are counted, on top of replies and of what a history is',
     ['conn_worker.Serving.ServesAndBooks', 'conn_core.Booking.Books', 'conn_worker.Faults.*']),
    ('A call on a book', 'the clauses `does`, `memory` and `receipt` of the calls that do an event: `Does`, `MemoryIsLast` and '
     '`IsReceipt`, on top of `answer`',
     ['event_log.Event.Does', 'event_log.Event.MemoryIsLast', 'book_core.Receiving.*']),
    ('A message at a book', 'the clause `told` of `answer_block`: `OutcomeAtBook`, on top of `answer` and `is_full`',
     ['conn_core.Booking.OutcomeAtBook']),
    ('Delivering', 'the clause `attempts` of `deliver`: `Delivers`, on top of framing and of what a message is',
     ['delivery_worker.Delivering.Delivers']),
    ('One history for all threads', 'the clause `call` of the calls of `Shared` that do an event or prune, and `one_history` of '
     '`close`: `Arrives`, `Takes`, `Calls`, `IsCalled`, `IsPruned` and `Linearizes`, on top of a call on a book',
     ['book_lock.Log.Calls', 'book_lock.Log.Arrives', 'book_lock.Log.Takes', 'book_lock.Log.IsCalled', 'book_lock.Log.IsPruned',
      'book_lock.Log.IsPruneRefused', 'book_lock.Log.IsTidiedInLog', 'book_lock.Log.Linearizes']),
    ('The slots and the callers of a closed book', 'the clause `closed` of `close`: `IsClosedBy`, with `IsAccountedFor` and '
     '`AreCallers`, on top of one history for all threads',
     ['book_lock.Callers.IsClosedBy']),
    ('A connection in the one history', 'the clause `booked` of `serve`: `BooksInLog` and `ArrivesInTurn`; and what a seat knows of a '
     'repeat that is not booked, which `ca_is_kept` and `persist` of service_workers speak of: `IsKnownIn` and `IsDurablyKnown`; on top '
     'of one history for all threads',
     ['conn_worker.Arriving.BooksInLog', 'conn_worker.Arriving.IsKnownIn', 'conn_worker.Arriving.IsDurablyKnown']),
    ('Delivering in that history', 'the clause `attempts` of `deliver` and `deliver_until`: `DeliversInLog`, on top of delivering '
     'and of one history for all threads',
     ['delivery_worker.Turns.DeliversInLog']),
    ('Delivered is sent', 'the law `delivered_is_sent`, and the clauses `traced` of `close_book` in engine_workers and in '
     'service_workers: `IsTraced` and `IsTracedTo`, with `EveryDeliveredWasSent` and `EveryArrivalHasReceipt`, on top of the slots and '
     'callers of a closed book and of connections and delivering in the one history',
     ['delivery_worker.Sent.*']),
)
# Further claims: about the program, a model of the whole engine, pruning, and the text of a plan.
BESIDE = (
    ('What a run counts, and its receipts', 'the clauses of `close` and `audit`: what adds up, which receipts are due, which fault is '
     'first',
     ['book_lock.Rises.AddsUp', 'book_lock.Auditing.receipts_due', 'book_lock.Auditing.unfolded', 'book_lock.Auditing.IsFirstFault']),
    ('What is durable', 'the clauses `copies` of `copy_entries`, `durable`, `all` and `committed` of `wait_durable`, `durable` of '
     '`take_durable`, `committed` of `close` and `by_rule` of `deliver_until`: `Copies`, `AreArrivalsDurable`, `IsAllDurable`, `AreCommitted`, '
     '`IsDurableMessage`, `IsNotTaken`, `TakesByRule` and '
     '`HasCommitted`, on top of one history for all threads',
     ['book_lock.Journal.Copies', 'book_lock.Durable.AreArrivalsDurable', 'book_lock.Durable.IsAllDurable',
      'book_lock.Durable.AreCommitted',
      'book_lock.Durable.IsDurableMessage', 'book_lock.Durable.IsNotTaken', 'book_lock.Durable.HasCommitted',
      'delivery_worker.Taking.TakesByRule']),
    ('Which arrivals are held back', 'the clauses `arrives` and `crowded` of `arrive_tidy` and `arrive_tidy_judged`: `crowded_route`, on '
     'top of what a history is',
     ['book_lock.Crowding.*']),
    ('The end of a run', 'the clauses of `conclude`, `find`, `listen_faults` and `statistics_of`: `Concludes`, `IsFinding`, '
     '`failed_channels` and `lines_of_closed`, on top of a shared book',
     ['engine_report.Findings.Concludes', 'engine_report.Findings.IsFinding', 'engine_report.Findings.failed_channels',
      'engine_report.Lines.lines_of_closed']),
    ('Every order of steps', 'the clauses of `World::run`, `World::promise` and `steps_of`: `Runs`, `RunInvariant` and '
     '`IsRunOf`, on top of replies and of what a history is',
     ['engine_model.Steps.Runs', 'engine_model.Promise.RunInvariant', 'engine_model.Converse.IsRunOf']),
    ('What a pruned history still says', 'the law `folding_rules`: `prune_answer`, `pruned`, `IsAlike` and `AllReplyAlike`, on top of what a '
     'history is; event_log PruningRows has worked examples',
     ['event_log.Folding.prune_answer', 'event_log.Folding.pruned', 'event_log.Alike.*']),
    ('The store', 'the clauses of `EventStore` (event_store) and of `open` and `open_at` (event_file): `AddsRecord`, `AreDurable`, '
     '`IsAppendFailure`, its invariants, and what is read: `contents_of`, `AreHeldBy` and `AreHeldIn`. What a disk, pages and trees '
     "are is defined by the kit's crates sqlite_disk, sqlite_pool, sqlite_store and sqlite_trees",
     ['event_store.Records.*', 'event_file.Found.*']),
    ('The history as a journal', 'the clauses of `replay`, and the laws `replay_rules` and `restart_rules`: `after_records`, `AreReplayed`, '
     '`IsStopped` and `AreRecordsOf`, on top of a call on a book and of one history for all threads',
     ['book_replay.Replay.after_records', 'book_replay.Replay.AreReplayed', 'book_replay.Replay.IsStopped',
      'book_replay.Replay.IsBooked', 'restart_laws.Restart.AreRecordsOf']),
    ('A start', 'the clauses of `recover`, `flying`, `settle_interrupted` and `adopt_plan` (book_recovery): what the records say beside '
     'the book, at how many destinations a message is in flight, which messages have no attempt left, and which plan is in force then',
     ['book_recovery.Seen.*', 'book_recovery.Interrupting.*', 'book_recovery.Adopted.*']),
    ('Reading a plan', 'the clause `text` of `Plan::read`: `plan_in`. What a TOML document says is the definition of the '
     "kit's crate toml",
     ['plan_text.Document.plan_in']),
    ('The command line', "`Asks` and how the program ends, over the definitions of the kit's crate clap",
     ['engine_report.Words.Asks', 'engine_report.Request.*', 'engine_report.Ending.*']),
)
HEAD = re.compile(r'(?:infix[lr]? \d+ )?(?:unfoldable |abbrev )*(?:pub )?(?:(record|data) )?([\w\-]+|◌\S+◌)(?=[\s:])')
WORD = re.compile(r'[A-Za-z_][\w\-]*(?:\.[A-Za-z_][\w]*)?')
OPERATORS = {'>>=': '◌>>=◌'}


class Module:
    """A file of specs/: its definitions in the order of the file, and its imports."""

    def __init__(self, path):
        self.defs = collections.OrderedDict()
        self.constructors = {}
        self.imports, self.modules = {}, {}
        current, mutual = None, False
        with open(path, encoding='utf-8') as f:
            for line in f:
                line = re.sub(r'"(?:[^"\\]|\\.)*"', '""', line.rstrip('\n'))
                if line.startswith('use '):
                    self.bring(line[4:])
                if not line or line.startswith(('use ', '--', 'pub mod ', 'infix', 'unfolding ')):
                    continue
                if line in ('mutual', 'abbrev mutual') or line.startswith('module '):
                    mutual = True
                    continue
                if line[0] != ' ':
                    mutual = False
                if mutual and line.strip().startswith('--'):
                    continue
                begins = line[0] != ' ' or (mutual and line.startswith('  ') and line[2] != ' ')
                head = HEAD.match(line.strip()) if begins else None
                if head and ' >>= ' in line.partition(' = ')[0]:
                    head = None
                if head:
                    current = head.group(2)
                    self.defs.setdefault(current, [])
                elif current and re.match(r'\s+[a-z_]\w* :', line) and re.search(r'\bdata\b', self.defs[current][0]):
                    self.constructors[line.split()[0]] = current
                if current:
                    self.defs[current].append(line)

    def bring(self, line):
        names = re.match(r'Rattle\.([\w.\-]+)\.\{(.*)\}$', line)
        whole = re.match(r'Rattle\.([\w.\-]+) as (\w+)$', line)
        if names:
            for name in names.group(2).split(','):
                name, _, local = name.strip().partition(' as ')
                self.imports[local or name] = (names.group(1), name)
        elif whole:
            self.modules[whole.group(2)] = whole.group(1)

    def words(self, name):
        """The names that a definition uses, except the variables that an equation binds and the fields that it sets."""
        used, bound = set(), set()
        for line in self.defs[name]:
            left, equals, right = line.partition(' = ')
            if equals and (left.split()[0] == name or name in OPERATORS.values()):
                bound = set(WORD.findall(left)) - {name}
                line = right
            elif left.split()[0] == name:
                bound = set()
                line = line.partition(' : ')[2]
            line = re.sub(r'[a-z_]\w*(?= =(?!=))', '', line)
            here = set(bound)
            for binders in re.findall(r'λ ([^.]*)\.', line) + re.findall(r'\(([\w ]+) :', line):
                here |= set(WORD.findall(binders))
            used |= {word for word in WORD.findall(line) if word.partition('.')[0] not in here}
            used |= {whole for sign, whole in OPERATORS.items() if sign in line}
            if line.endswith(' do') or line == 'do':
                used.add(OPERATORS['>>='])
        return used


def modules_of():
    found = {}
    for path in sorted(glob.glob(os.path.join(CRATES, '*', 'specs', '*.antt'))):
        crate, _, file = os.path.relpath(path, CRATES).split(os.sep)
        found[f'{crate}.specs.{file[:-5]}'] = Module(path)
    return found


def reach(modules, module, name, seen):
    """Adds a definition and everything that it rests on to `seen`."""
    here = modules.get(module)
    if here is None:
        return
    name = here.constructors.get(name, name)
    if name not in here.defs or (module, name) in seen:
        return
    seen.add((module, name))
    for word in here.words(name):
        first, _, second = word.partition('.')
        if second and first in here.modules:
            reach(modules, here.modules[first], second, seen)
        elif first in here.imports:
            reach(modules, *here.imports[first], seen)
        elif first != name:
            reach(modules, module, first, seen)


def claims(modules, stated=None):
    """The definitions that claims rest on, as pairs of module and name, and a line for each claim. Without `stated`: for all claims."""
    seen, lines = set(), []
    for title, said, roots in stated or PROMISE + BESIDE:
        for root in roots:
            crate, file, name = root.split('.')
            module = f'{crate}.specs.{file}'
            assert module in modules, f'{module} is not there'
            for each in (modules[module].defs if name == '*' else [name]):
                assert each in modules[module].defs, f'{module} has no {each}'
                reach(modules, module, each, seen)
        lines.append(f'- **{title}**: {said}.')
    return seen, lines


def heading(module):
    """The first line of a page, without its dashes; empty if the page doesn't begin with a comment."""
    crate, _, file = module.split('.')
    with open(os.path.join(CRATES, crate, 'specs', f'{file}.antt'), encoding='utf-8') as page:
        first = page.readline().strip()
    return first[3:].rstrip('.:') if first.startswith('-- ') else ''


def size(modules, seen):
    """The total number of lines of these definitions."""
    return sum(len(modules[module].defs[name]) for module, name in seen)


def page_line(modules, seen, module):
    crate, _, file = module.split('.')
    names = [name for name in modules[module].defs if (module, name) in seen]
    listed = ', '.join(f'`{name.strip("◌")}`' for name in names)
    lines = size(modules, [(module, name) for name in names])
    return f'| [{crate} {file}](../crates/{crate}/specs/{file}.antt) | {heading(module)} | {lines} | {listed} |'


def tables(modules, seen, pages):
    """Yields the lines of the tables for these pages, in reading order."""
    for title, order in ORDER:
        here = [module for module in (page.replace('.', '.specs.') for page in order.split()) if module in pages]
        if here:
            yield from (f'### {title}', '', '| Page | What it defines | Lines | Definitions |', '|---|---|---|---|')
            yield from (page_line(modules, seen, module) for module in here)
            yield ''


def cited(module):
    """The pages of specs/inner/ that a page of specs/ cites."""
    crate, _, file = module.split('.')
    with open(os.path.join(CRATES, crate, 'specs', f'{file}.antt'), encoding='utf-8') as page:
        return sorted({line.split('.{')[0].split()[-1] for line in page if line.startswith(('use ', 'pub use ')) and '.specs.inner' in line})


def misplaced(modules, seen):
    """Yields what is wrong with the pages of specs/: pages that cite specs/inner/, that have no heading, or that have a definition
    on which no claim rests; and names that two pages define."""
    for module, page in modules.items():
        file = module.split('.')[2]
        if file in ('Lib', 'inner'):
            continue
        if not heading(module):
            yield f'{module} begins with no heading'
        yield from (f'{module} cites {inner}' for inner in cited(module))
        left = [name for name in page.defs if (module, name) not in seen]
        if left:
            yield f'{module}: no claim rests on {", ".join(left)}, which belongs to specs/inner/'
    where = collections.defaultdict(list)
    for module, name in seen:
        where[name].append(module)
    for name, pages in sorted(where.items()):
        if len(pages) > 1 and name not in OPERATORS.values():
            yield f'{name} is defined by {" and by ".join(sorted(pages))}'


def text_of(modules, seen):
    """Yields the lines of the whole page."""
    first, promised = claims(modules, PROMISE)
    beside = claims(modules, BESIDE)[1]
    pages = {module for module, _ in first}
    rest = {module for module, _ in seen} - pages
    here = {each for each in seen if each[0] in pages}
    yield from ('# The definitions to trust', '', '<!-- written by tests/definitions.py --write -->', '',
                f'A proof says that code agrees with definitions. These are the {len(seen)} definitions that what [PROVED.md](PROVED.md) '
                'claims rests on, in the order in which they are best read. Whether they say what HL7 v2.5.1 and the pages of docs/ '
                'mean, a reader has to see; no proof can. What is in `specs/inner/` helps proofs, or words a clause of a single call.', '',
                f'The promise rests on the {len(pages)} pages of the first part, {size(modules, here)} lines of definitions. The second '
                f'part has {len(rest)} pages, {size(modules, seen - here)} lines, for the claims beside it.', '',
                '## The promise', '', *promised, '')
    yield from tables(modules, seen, pages)
    yield from ('## Beside the promise', '', *beside, '')
    yield from tables(modules, seen, rest)


def main():
    modules = modules_of()
    seen, _ = claims(modules)
    listed = [page.replace('.', '.specs.') for _, pages in ORDER for page in pages.split()]
    pages = {module for module, _ in seen}
    wrong = [f'{module} is not in the reading order' for module in sorted(pages - set(listed))]
    wrong += [f'{module} is in the reading order, but no claim rests on it' for module in listed if module not in pages]
    wrong += misplaced(modules, seen)
    if not wrong:
        text = '\n'.join(text_of(modules, seen))
        if sys.argv[1:] == ['--write']:
            with open(PAGE, 'w', encoding='utf-8') as f:
                f.write(text)
        with open(PAGE, encoding='utf-8') as f:
            if f.read() != text:
                wrong.append('docs/DEFINITIONS.md is not what tests/definitions.py --write writes')
    for line in wrong:
        print(f'definitions: {line}')
    print(f'definitions: {len(listed)} pages, {len(wrong)} faults')
    return 1 if wrong else 0


if __name__ == '__main__':
    sys.exit(main())
