"""Units of a run."""


class UnitFault(Exception):
    """A unit can't do what is asked."""

    def __init__(self, unit, rule):
        super().__init__(unit, rule)
        self.unit, self.rule = unit, rule


def records_of(content):
    """The records of some bytes."""
    lines = content.split(b"\n")
    if not lines[-1]:
        lines.pop()
    return lines


class Units:
    """Units: what those hold that may be read, those that may be written, and all records that were written, in order.

    A unit that may be read and written is one or the other from its first use on.
    """

    def __init__(self, inputs, outputs=(6,)):
        self.left = {unit: iter(records_of(content)) for unit, content in inputs.items()}
        self.outputs, self.printed = set(outputs), []

    def read(self, unit):
        """The next record of a unit, or None at its end."""
        if unit not in self.left:
            raise UnitFault(unit, 1)
        self.outputs.discard(unit)
        return next(self.left[unit], None)

    def write(self, unit, record):
        """Writes a record."""
        if unit not in self.outputs:
            raise UnitFault(unit, 1)
        self.left.pop(unit, None)
        self.printed.append((unit, record))

    def bytes_on(self, unit):
        """What was written on a unit."""
        return b"".join(record + b"\n" for on, record in self.printed if on == unit)
