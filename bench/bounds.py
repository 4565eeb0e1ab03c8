"""Bounds of measures, and the resident memory of a process. It has no command line of its own."""
import os


class Bounds:
    """Prints figures, and records whether every bound is met."""

    def __init__(self):
        self.met = True

    def _printed(self, what, figure, words, is_met):
        self.met &= is_met
        print(f'{what}: {figure:.3g}{words}: {"ok" if is_met else "MISSED"}', flush=True)

    def at_most(self, what, figure, bound, unit=''):
        self._printed(what, figure, f'{unit}, at most {bound:g}{unit}', figure <= bound)

    def at_least(self, what, figure, bound):
        self._printed(what, figure, f', at least {bound:g}', figure >= bound)

    def agrees(self, what, found, expected):
        """Prints whether two values are the same, and both of them if they aren't."""
        self.met &= found == expected
        print(f'{what}: {"ok" if found == expected else f"{found}, and not {expected}: MISSED"}', flush=True)


def resident(process):
    """The resident memory of a process in bytes."""
    with open(f'/proc/{process.pid}/statm', encoding='ascii') as file:
        return int(file.read().split()[1]) * os.sysconf('SC_PAGE_SIZE')
