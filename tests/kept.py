"""Which edits the prover has refused on this machine, each by a sum of all that its trial reads: the edit, the files of its crate
and of the crates below, their rows in crates.txt, the toolchain, and the two scripts that try and judge it. A trial of which
nothing has changed needn't be made again: `rt ci` keeps its proofs the same way. Only refusals are kept. Plain Python 3.
"""
import functools
import hashlib
import os
import subprocess

HERE = os.path.dirname(os.path.abspath(__file__))
PARTS = ('proofs', 'specs', 'src')


def sum_of(*pieces):
    """The sum of the pieces, each a text or bytes, kept apart by their lengths."""
    found = hashlib.sha256()
    for piece in pieces:
        data = piece if isinstance(piece, bytes) else piece.encode()
        found.update(b'%d:' % len(data) + data)
    return found.hexdigest()


def read(path):
    """The bytes of a file."""
    with open(path, 'rb') as it:
        return it.read()


@functools.lru_cache(maxsize=None)
def sum_of_tools():
    """The sum of the toolchain and of the scripts that judge."""
    said = subprocess.run(['rt', 'version'], capture_output=True, text=True, check=True).stdout
    guide = subprocess.run(['rt', 'doc'], capture_output=True, text=True, check=True).stdout.strip()
    kit = os.path.join(os.path.dirname(guide), 'WHAT')
    return sum_of(said, read(kit) if os.path.isfile(kit) else b'', read(f'{HERE}/edits.py'), read(__file__))


@functools.lru_cache(maxsize=None)
def sum_of_crate(folder):
    """The sum of a crate's files that a check reads."""
    pieces = []
    for part in PARTS:
        for at, _, names in sorted(os.walk(f'{folder}/{part}')):
            for name in sorted(names):
                pieces += [os.path.relpath(f'{at}/{name}', folder), read(f'{at}/{name}')]
    return sum_of(*pieces)


class Kept:
    """The refusals that earlier runs on this machine have kept; with `anew` none of them counts, and this run's are kept.

    The crates that are tried lie in `root`, and those below them in `built`, whose files their libraries were made of.
    """

    def __init__(self, root, built, rows, anew=False):
        self.root, self.built, self.rows, self.anew = root, built, rows, anew
        cache = os.environ.get('XDG_CACHE_HOME') or os.path.expanduser('~/.cache')
        self.folder = os.path.join(cache, 'refused-edits')

    def below(self, crate):
        """The repository's crates that a crate names, and those that these name."""
        found, left = set(), [crate]
        while left:
            new = {it for it in self.rows[left.pop()] if it in self.rows} - found
            found |= new
            left += new
        return sorted(found)

    def path(self, crate, name):
        """The file in which the refusal of an edit of this text is kept."""
        own = ' '.join(self.rows[crate]), sum_of_crate(f'{self.root}/crates/{crate}')
        read_by = [*own, *(piece for it in self.below(crate)
                           for piece in (it, ' '.join(self.rows[it]), sum_of_crate(f'{self.built}/crates/{it}')))]
        edit = read(f'{self.root}/crates/{crate}/must-fail/{name}.edit')
        return os.path.join(self.folder, f'{crate}-{name}-{sum_of(sum_of_tools(), edit, *read_by)}')

    def why(self, crate, name):
        """Why an earlier run's prover refused this edit, or None where no run on this machine has tried it."""
        try:
            return None if self.anew else read(self.path(crate, name)).decode() or None
        except OSError:
            return None

    def keep(self, crate, name, why):
        """Keeps that the prover has refused this edit. Where that can't be written, the next run tries it again."""
        try:
            path = self.path(crate, name)
            os.makedirs(self.folder, mode=0o700, exist_ok=True)
            with open(f'{path}.{os.getpid()}', 'w', encoding='utf-8') as it:
                it.write(why)
            os.replace(f'{path}.{os.getpid()}', path)
        except OSError:
            pass
