"""The columns of a table of jobs, as arrays: by numpy if that is installed, and otherwise by Python's own."""

from __future__ import annotations

from array import array
from collections.abc import Callable, Iterator, Sequence
from typing import Any, NamedTuple

from fail_star_tools.read.campaign_file import Refusal
from fail_star_tools.read.cells import BYTE_WIDTH, FIRST_BYTE, REGISTER_WIDTH
from fail_star_tools.read.job_table import HEADER, LONGEST_LINE, NEW_OUTCOMES, OUTCOMES, Lines, reads_of, refused

CHUNK = 1 << 22  # the letters that are read at once
NUMBERS = ("cycle", "cell", "bit", "weight")  # the columns of a line without its outcome, which is a place in OUTCOMES
TYPES = {"cycle": "I", "cell": "I", "bit": "B", "weight": "I", "outcome": "B"}
# Longer words first, so that no word is replaced within another.
PLACES = {word: str(OUTCOMES.index(word)) for word in sorted(NEW_OUTCOMES, key=len, reverse=True)}
DIGITS, OF_DIGITS = "".join(PLACES.values()), bytes.maketrans(b"0123456789", bytes(range(10)))
BITS = array("B", range(REGISTER_WIDTH)), array("B", range(BYTE_WIDTH))  # of a register and of a byte
NO_JOB = "fail_star report: it wrote a line that is no job"


def numpy() -> Any:
    """The module numpy, or None if it is not installed."""
    try:
        import numpy as found
    except ImportError:
        return None
    return found


class JobRow(NamedTuple):
    """A job with its outcome."""

    cycle: int
    cell: int
    name: str
    bit: int
    weight: int
    outcome: str


class Labels(NamedTuple):
    """A word for each row: the different words, and for each row the place of its word among them."""

    words: list[str]
    places: Any  # an array

    def word(self, row: int) -> str:
        """The word of a row."""
        place: int = self.places[row]
        return self.words[place]


class Columns:
    """The numbers of all rows, by columns."""

    def __init__(self, numbers: dict[str, Any]) -> None:
        self.numbers = numbers

    def __len__(self) -> int:
        return len(self.numbers["cycle"])

    @property
    def instructions(self) -> int:
        """The number of instructions: the last one reads a register, so it has a row."""
        return int(self.numbers["cycle"][-1]) + 1

    def live_sites(self) -> int:
        """The sites that the rows represent."""
        return int(sum(self.numbers["weight"])) if numpy() is None else int(self.numbers["weight"].sum(dtype="uint64"))

    def labels_by_cell(self, word_of: Callable[[int], str]) -> Labels:
        """A word for each row that its cell gives."""
        cells = self.numbers["cell"]
        return self.labels_by(sorted(set(cells)) if numpy() is None else numpy().unique(cells).tolist(), cells, word_of)

    def labels_by_cycle(self, pcs: Sequence[int], word_of: Callable[[int], str]) -> Labels:
        """A word for each row that the pc of its cycle gives."""
        places = word_places(pcs, word_of)
        return Labels(places.words, taken(places.places, self.numbers["cycle"]))

    def labels_by(self, values: list[int], column: Any, word_of: Callable[[int], str]) -> Labels:
        """A word for each row that the number in a column gives, of which these are the different values."""
        of_values = word_places(values, word_of)
        by_value = array("I", bytes(4 * (values[-1] + 1)))
        for value, place in zip(values, of_values.places):
            by_value[value] = place
        return Labels(of_values.words, taken(by_value, column))


def word_places(values: Sequence[int], word_of: Callable[[int], str]) -> Labels:
    """The words of some numbers."""
    words: dict[str, int] = {}
    known: dict[int, int] = {}
    places = array("I")
    for value in values:
        place = known.get(value)
        if place is None:
            place = known[value] = words.setdefault(word_of(value), len(words))
        places.append(place)
    return Labels(list(words), places)


def taken(values: array[int], at: Any) -> Any:
    """The values at some places."""
    np = numpy()
    if np is None:
        return array("I", map(values.__getitem__, at))
    return np.frombuffer(values, dtype=np.uint32)[at]


# --- Reading --------------------------------------------------------------------------------------


def columns_of_text(lines: Lines) -> Columns:
    """The columns of a text of whatever origin, or the refusal of its first invalid line."""
    columns = {name: array(kind) for name, kind in TYPES.items()}
    for read in reads_of(lines):
        width = len(read.outcomes)
        for name, number in (("cycle", read.cycle), ("cell", read.cell), ("weight", read.weight)):
            columns[name].extend([number] * width)
        columns["bit"].extend(range(width))
        columns["outcome"].frombytes(read.outcomes)
    return Columns(as_arrays(columns))


def columns_by_program(lines: Lines) -> Columns:
    """The columns of the text that the program writes, which is taken in large pieces."""
    header = lines.readline(len(HEADER) + 2)
    if header.rstrip("\n") != HEADER:
        raise refused(1, f"expected {HEADER}", header or None)
    columns = {name: array(kind) for name, kind in TYPES.items()}
    rest = ""
    for text in texts(lines):
        for word, place in PLACES.items():
            text = text.replace(word, place)
        rest = take_reads(rest + text, columns)
    if rest:
        raise Refusal(NO_JOB)
    if not columns["cycle"]:
        raise refused(2, "expected a job", None)
    return Columns(as_arrays(columns))


def texts(lines: Any) -> Iterator[str]:
    """A text in pieces of whole lines."""
    read = getattr(lines, "read", None)
    while True:
        text = read(CHUNK) + lines.readline(LONGEST_LINE) if read else lines.readline(LONGEST_LINE)
        if not text:
            return
        yield text


def take_reads(text: str, columns: dict[str, array[int]]) -> str:
    """Takes the jobs of the reads in some lines, whose outcomes are digits, and leaves the beginning of the next read.
    The lines of a read differ only in the bit and the outcome, so their lengths follow from that of the first one."""
    at, whole = 0, len(text)
    while at < whole:
        line = text[at : text.find("\n", at) + 1]
        length = len(line)
        try:
            cycle, cell, bit, weight, _ = line.split(",")
            bits, tens = (BITS[1], at + 8 * length) if int(cell) >= FIRST_BYTE else (BITS[0], at + 10 * length)
            end = tens + (len(bits) - 10) * (length + 1) if len(bits) > 10 else tens
            if end > whole and length <= LONGEST_LINE:
                return text[at:]
            outcomes = text[at + length - 2 : tens : length] + text[tens + length - 1 : end : length + 1]
            if bit != "0" or outcomes.strip(DIGITS) or not text.startswith(f"{cycle},{cell},{bits[-1]},{weight},", end - length - (end > tens)):
                raise Refusal(NO_JOB)
            for name, number in (("cycle", cycle), ("cell", cell), ("weight", weight)):
                columns[name].extend(array("I", (int(number),)) * len(bits))
        except (ValueError, OverflowError):
            raise Refusal(NO_JOB) from None
        columns["bit"].extend(bits)
        columns["outcome"].frombytes(outcomes.encode().translate(OF_DIGITS))
        at = end
    return ""


def as_arrays(columns: dict[str, array[int]]) -> dict[str, Any]:
    """The columns as arrays of numpy, if it is installed."""
    np = numpy()
    return dict(columns) if np is None else {name: np.frombuffer(column, dtype=TYPES[name]) for name, column in columns.items()}


# --- The table ------------------------------------------------------------------------------------


class JobTable(Sequence[JobRow]):
    """The jobs of a campaign. Its items are rows, and `column` gives all of one kind."""

    def __init__(
        self, columns: Columns, labels: dict[str, Labels], attrs: dict[str, Any], pcs: array[int] | None = None
    ) -> None:
        self.columns, self.attrs = columns, attrs
        self.labels = {**labels, "outcome": Labels(list(OUTCOMES), columns.numbers["outcome"])}
        self.pcs = pcs

    def __len__(self) -> int:
        return len(self.columns)

    def __getitem__(self, row: Any) -> Any:
        if isinstance(row, slice):
            return [self[at] for at in range(*row.indices(len(self)))]
        numbers = self.columns.numbers
        cycle, cell, bit, weight = (int(numbers[name][row]) for name in NUMBERS)
        return JobRow(cycle, cell, self.labels["name"].word(row), bit, weight, self.labels["outcome"].word(row))

    def __iter__(self) -> Iterator[JobRow]:
        numbers, names = self.columns.numbers, self.labels["name"]
        columns = (listed(numbers[name]) for name in ("cycle", "cell", "bit", "weight", "outcome"))
        for cycle, cell, bit, weight, outcome, name in zip(*columns, listed(names.places)):
            yield JobRow(cycle, cell, names.words[name], bit, weight, OUTCOMES[outcome])

    @property
    def names(self) -> list[str]:
        """The names of all columns."""
        of_code = ["pc"] * (self.pcs is not None) + [name for name in ("function", "line", "variable") if name in self.labels]
        return [*JobRow._fields, *of_code]

    def column(self, name: str) -> Any:
        """A column: an array of numbers, or the list of words."""
        if name in self.labels:
            labels = self.labels[name]
            return [labels.words[place] for place in labels.places]
        if name == "pc" and self.pcs is not None:
            return taken(self.pcs, self.columns.numbers["cycle"])
        return self.columns.numbers[name]

    def to_pandas(self) -> Any:
        """The table as a DataFrame: words are categories, and `attrs` is that of the table."""
        from pandas import Categorical, DataFrame

        def shown(name: str) -> Any:
            if name in self.labels:
                labels = self.labels[name]
                return Categorical.from_codes(labels.places, categories=labels.words)
            return self.column(name)

        frame = DataFrame({name: shown(name) for name in self.names}, copy=False)
        frame.attrs = self.attrs
        return frame


def listed(column: Any) -> Any:
    """A column whose items are Python's numbers."""
    return column.tolist() if hasattr(column, "tolist") else column
