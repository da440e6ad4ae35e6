"""How labels go out as fields of an edge list, and come back as they were.

The labels of most graphs are of one kind, whole numbers or texts: these are their own fields. The first label says which
kind that is. Any other label is known by a number, after a byte that no text in UTF-8 has.

>>> labels = Labels()
>>> labels.lines([("a", "b"), ("b", 7), ("#tag",)])
b'a\\tb\\nb\\t\\xff0\\n\\xff1\\n'
>>> [labels.label(field) for field in ("a", "b", "\\udcff0", "\\udcff1")]
['a', 'b', 7, '#tag']
"""
from __future__ import annotations

import operator
from contextlib import suppress
from decimal import Decimal
from itertools import chain
from numbers import Real
from typing import Any, Dict, Hashable, List, Optional, Sequence, Set, Tuple

Record = Tuple[Any, ...]

# The byte before a number, as it is read back.
_READ = "\udcff"

_EDGE = "%s\t%s\n"


def bytes_of(text: str) -> bytes:
    """The bytes of fields that are put together as a text."""
    return text.encode("utf-8", "surrogateescape")


def edges(fields: Sequence[Any], both_ways: bool) -> bytes:
    """Lines of edges: of two fields each, one edge after the other. One format of many is the fastest way there is."""
    if both_ways:
        doubled = [*fields, *fields]
        doubled[::4], doubled[1::4], doubled[2::4], doubled[3::4] = fields[::2], fields[1::2], fields[1::2], fields[::2]
        fields = doubled
    return bytes_of(_EDGE * (len(fields) // 2) % tuple(fields))


class Labels:
    """The labels of one edge list."""

    def __init__(self) -> None:
        self._plain: Optional[type] = None
        self._odd: Dict[Hashable, str] = {}
        self._numbered: List[Any] = []

    def lines(self, records: Sequence[Record], both_ways: bool = False) -> bytes:
        """The records, of one or two labels each, as lines with tabs between. ValueError names a label that is none."""
        fields = self.fields(list(chain.from_iterable(records)))
        if set(map(len, records)) == {2}:
            return edges(fields, both_ways)
        rest = iter(fields)
        return b"".join([edges([next(rest), next(rest)], both_ways) if len(record) == 2 else bytes_of(f"{next(rest)}\n")
                         for record in records])

    def fields(self, labels: List[Any]) -> List[Any]:
        """The fields of labels: these themselves, where all are whole numbers or texts that may stand so; else texts.

        ValueError names a label that is none.
        """
        kinds = set(map(type, labels))
        if self._are_plain(labels, kinds):
            return labels
        whole = _whole(labels, kinds) if self._plain in (None, int) else None
        if whole:
            self._plain = int
            return whole
        try:
            fields: List[Any] = list(map(self._odd.get, labels))
        except TypeError:  # one of them cannot be hashed
            for label in labels:
                _checked(label)
            raise
        if None not in fields:
            return fields
        others = [label for label, field in zip(labels, fields) if field is None]
        if self._are_plain(others, set(map(type, others))):
            return [label if field is None else field for label, field in zip(labels, fields)]
        known = {label: self._field(label) for label in dict.fromkeys(others)}
        return [known[label] if field is None else field for label, field in zip(labels, fields)]

    def field(self, label: Any) -> bytes:
        """The field of a label, in bytes."""
        return bytes_of(str(self.fields([label])[0]))

    def label(self, field: str) -> Any:
        """The label of a field that was read back."""
        if field.startswith(_READ):
            return self._numbered[int(field[1:])]
        return int(field) if self._plain is int else field

    def are_whole(self) -> bool:
        """Whether whole numbers are their own fields. They are from now on if no label was seen before."""
        self._plain = self._plain or int
        return self._plain is int

    # Whether labels of these types are all of the plain kind, and fields as they stand.
    def _are_plain(self, labels: List[Any], kinds: Set[type]) -> bool:
        kind: Any = next(iter(kinds), None)
        if len(kinds) != 1 or kind not in (int, str) or self._plain not in (None, kind):
            return False
        if kind is str and not _are_fields(labels):
            return False
        self._plain = kind
        return True

    def _field(self, label: Any) -> str:
        label = _checked(label)
        kind: type = type(label)
        if isinstance(label, str):
            kind = str
        if self._plain is None and kind in (int, str):
            self._plain = kind
        if kind is self._plain:
            text = str.__str__(label) if kind is str else str(label)  # (str of an Enum of texts is its name)
            if kind is int or _is_field(text):
                return text
        if label not in self._odd:
            self._odd[label] = f"{_READ}{len(self._numbered)}"
            self._numbered.append(label)
        return self._odd[label]


class Labelled:
    """An edge list of Python objects."""

    delimiter = "tab"

    def __init__(self) -> None:
        self._labels = Labels()
        self.field = self._labels.field
        self.label = self._labels.label


# The labels as whole numbers, if all are.
def _whole(labels: List[Any], kinds: Set[type]) -> Optional[List[int]]:
    if not all(issubclass(kind, Real) for kind in kinds):
        return None
    try:
        whole = list(map(int, labels))
    except (ValueError, OverflowError):
        return None
    return whole if whole == labels else None


# A label that can be one: a whole number of any type as an int, and each other one as it is.
def _checked(label: Any) -> Any:
    if isinstance(label, str):
        _check_text(label)
        return label
    if _is_missing(label):
        raise ValueError(f"a label is missing: {label!r}")
    if isinstance(label, (Real, Decimal)):  # (2.0, Decimal(2) and numpy's are 2)
        with suppress(ValueError, OverflowError):
            if int(label) == label:
                return int(label)
    try:
        hash(label)
    except TypeError:
        raise ValueError(f"the label {label!r} cannot be hashed") from None
    try:
        return int(operator.index(label))  # (of True it is True in old Pythons)
    except TypeError:
        return label


# None, a float that is no number, of numpy's types too, and what pandas has where a value is missing.
def _is_missing(label: Any) -> bool:
    if label is None or type(label).__name__ in ("NAType", "NaTType"):
        return True
    return (isinstance(label, float) or hasattr(label, "dtype")) and getattr(label, "ndim", 0) == 0 and bool(label != label)


def _check_text(label: str) -> None:
    for character, name in (("\t", "a tab"), ("\n", "a line's end"), ("\r", "a carriage return")):
        if character in label:
            raise ValueError(f"the label {label!r} has {name} in it")
    if not label:
        raise ValueError("a label is an empty text")


# Whether a text that was checked is its own field. It is not where it would begin a comment or a file with a byte order
# mark, where it is the line between two sections, and where UTF-8 has no bytes for it.
def _is_field(text: str) -> bool:
    if text.startswith(("#", "\ufeff")) or text == "%%":
        return False
    try:
        text.encode()
    except UnicodeEncodeError:
        return False
    return True


# Whether these texts are fields as they stand.
def _are_fields(labels: List[str]) -> bool:
    text = "\n".join(["", *labels, ""])
    if text.count("\n") != len(labels) + 1:
        return False
    if any(part in text for part in ("\n\n", "\t", "\r", "\n#", "\n\ufeff", "\n%%\n")):
        return False
    return text.isascii() or _is_field(text)
