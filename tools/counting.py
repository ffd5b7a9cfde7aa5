"""How much of what a test expects holds."""
MOST_SHOWN = 600


class Count:
    """Counts, and prints what does not hold, after the name of the test."""

    def __init__(self, test=''):
        self.front = f'{test}: ' if test else ''
        self.passed = self.failed = 0
        # The names of what does not hold.
        self.faults = []

    def expect(self, holds, name, got=''):
        self.passed, self.failed = self.passed + bool(holds), self.failed + (not holds)
        if not holds:
            self.faults.append(name)
            print(self.front + name + (f': {str(got)[:MOST_SHOWN]}' if got != '' else ''), flush=True)

    def equal(self, name, got, *wanted):
        """Expects one of these."""
        self.expect(got in wanted, name, ' or '.join(difference(got, it) for it in wanted[:3]))

    def status(self, more=''):
        """Prints how much holds; 1 where something does not, or nothing was expected."""
        print(f'{self.passed} passed, {self.failed} failed{more}')
        return 1 if self.failed or not self.passed else 0


def difference(got, wanted):
    """In few letters how a value differs: of tuples each part that does, of texts the first line, of sets and dictionaries what stands in
    one alone."""
    if type(got) is not type(wanted):
        return f'{shown(got)}; wanted {shown(wanted)}'
    if isinstance(got, tuple) and len(got) == len(wanted):
        return ', '.join(difference(one, other) for one, other in zip(got, wanted) if one != other)
    if isinstance(got, (str, bytes)):
        return of_texts(got.splitlines(True), wanted.splitlines(True))
    if isinstance(got, (set, dict)):
        got, wanted = (it.items() if isinstance(it, dict) else it for it in (got, wanted))
        lacks, beside = ([it for it in one if it not in other] for one, other in ((wanted, got), (got, wanted)))
        return f'lacks {sorted(lacks, key=str)}, and has beside it {sorted(beside, key=str)}'
    return f'{shown(got)}; wanted {shown(wanted)}'


def of_texts(got, wanted):
    """The first line that differs, with its number where there are more."""
    at = next((k for k, pair in enumerate(zip(got, wanted)) if pair[0] != pair[1]), min(len(got), len(wanted)))
    one, other = (shown(it[at]) if at < len(it) else 'nothing' for it in (got, wanted))
    return f'line {at + 1}: {one}; wanted {other}' if max(len(got), len(wanted)) > 1 else f'{one}; wanted {other}'


def shown(value):
    return repr(value)[:300]
