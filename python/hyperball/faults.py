"""What a fault speaks of: the line of the file that a record is, its text, and what would mend it."""
from __future__ import annotations

import re
from typing import Any, List, Optional

from hyperball.files import DELIMITERS, Lines, said_of
from hyperball.program import Fault
from hyperball.sources import Source


def explained(fault: Fault, source: Source, counted: Optional[List[Any]], large: bool) -> Fault:
    """The fault, with what it speaks of where that can be found."""
    of_list = re.fullmatch(r"record (\d+) of the list names no vertex", fault.text)
    if of_list and counted is not None:
        label = counted[int(of_list[1]) - 1]
        return Fault(f"{fault.text}: {label!r} is to be counted, and is not in the graph", fault.status)
    if fault.text in ("too many records", "too many vertices") and not large:
        return Fault(f"{fault.text}: large=True takes more than 2^26 records or 2^24 vertices", fault.status)
    of_edges = re.fullmatch(r"record (\d+) has not one or two identifiers", fault.text)
    if of_edges and isinstance(source, Lines):
        try:
            told = _told(int(of_edges[1]), source)
        except (OSError, ValueError):  # a file that is closed, or cannot be read again
            told = None
        return Fault(f"{fault.text}: {told}", fault.status) if told else fault
    return fault


def _told(record: int, source: Lines) -> Optional[str]:
    for number, line in source.again() or ():
        record -= line not in (b"", b"\r") and not line.startswith(b"#")
        if record == 0:
            return said_of(number, line, DELIMITERS[source.delimiter], source.place)
    return None
