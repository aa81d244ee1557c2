"""What a check finds: what it prints, what of that is kept as evidence, and whether all is as it must be."""


class Report:
    """The findings of one check, of which the last is their sum. `right` and `wrong` count what was looked at and was
    as it must be, or not."""

    def __init__(self, show=print):
        self.show, self.found, self.right, self.wrong = show, [], 0, 0
        # how many lines were found with the sum
        self.lines_with_sum = None

    def tells(self, line):
        """Prints a line alone."""
        self.show(line, flush=True)

    def keeps(self, line):
        """Keeps a line as evidence alone."""
        self.found.append(line)

    def finds(self, line):
        """Prints a line, and keeps it as evidence."""
        self.keeps(line)
        self.tells(line)

    def sums(self, line):
        """Finds the line that sums up all the others, after them."""
        self.finds(line)
        self.lines_with_sum = len(self.found)

    def is_summed(self):
        """Returns whether the last finding is the sum."""
        return self.lines_with_sum == len(self.found)

    def judges(self, is_well, line):
        """Counts a thing that was looked at, and tells it, and finds it where it is not as it must be."""
        (self.tells if is_well else self.finds)(line)
        self.counts(is_well)

    def counts(self, is_well):
        """Counts a thing that was looked at."""
        self.right += bool(is_well)
        self.wrong += not is_well

    def sees(self, what, found, wanted):
        """Counts a thing that was looked at, and finds how it differs from what it must be, where it does."""
        self.counts(found == wanted)
        if found != wanted:
            self.finds(f"{what}\n  must be: {wanted}\n  is:      {found}")
