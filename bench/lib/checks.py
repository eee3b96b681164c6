"""How many comparisons of a bench came out as wanted, and how many not."""


class Checks:
    def __init__(self):
        self.good = self.bad = 0

    def expect(self, what, found, wanted):
        """Says where something else was found than was wanted."""
        if found == wanted:
            self.good += 1
        else:
            self.bad += 1
            print(f'differs: {what}: {found!r:.400} for {wanted!r:.400}', flush=True)

    def holds(self, what, is_so, found=''):
        """Says where something is not so, and what was found."""
        if is_so:
            self.good += 1
        else:
            self.bad += 1
            print(f'not as wanted: {what} {found}'.rstrip(), flush=True)
        return is_so

    def ended(self, name):
        """Tells both counts; the exit status of the bench."""
        print(f'{name}: {self.good} as wanted, {self.bad} not')
        return 1 if self.bad else 0
