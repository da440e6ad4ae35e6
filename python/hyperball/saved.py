"""Reports that are saved: the program's lines, after one that says what made them and of what kind the labels are.

The plain report begins with ``superstep``, so the line is known by its ``#``.

>>> head_of(Options(10, 0, "corrected", 4096, None, "0.1.0"), "texts")
'#hyperball,labels=texts,log2m=10,seed=0,estimate=corrected,limit=4096,counted=all,version=0.1.0'
"""
from __future__ import annotations

import ast
from typing import TYPE_CHECKING, Any, Callable, Dict, Iterator, List, NamedTuple, Optional, Tuple

if TYPE_CHECKING:
    from hyperball.report import Report

_WORD = "#hyperball"


class Options(NamedTuple):
    """What made a report: ``counted`` is how many labels the list of counted vertices had, or None if all count, and
    ``version`` the program's, or None if it did not say."""

    log2m: int
    seed: int
    estimate: str
    limit: int
    counted: Optional[int]
    version: Optional[str]


# How the labels of a kind are read.
_READERS: Dict[str, Callable[[str], Any]] = {"texts": str, "numbers": int, "literals": ast.literal_eval}


def head_of(options: Optional[Options], kind: str) -> str:
    """The line before a report with labels of this kind."""
    fields = {"labels": kind}
    if options is not None:
        fields.update((name, str(value)) for name, value in options._asdict().items() if value is not None)
        fields.setdefault("counted", "all")
    names = [name for name in ("labels", *Options._fields) if name in fields]
    return ",".join([_WORD, *(f"{name}={fields[name]}" for name in names)])


def read_head(line: str) -> Tuple[Optional[Options], Callable[[str], Any]]:
    """What a line that begins with ``#`` says, and how labels are read. ValueError if it is none of ours."""
    word, *parts = line.rstrip("\r\n").split(",")
    fields = dict(part.split("=", 1) for part in parts)
    kind = fields.pop("labels", "")
    if word != _WORD or kind not in _READERS:
        raise ValueError("no line of a report that was saved")
    if not fields:
        return None, _READERS[kind]
    version, counted = fields.pop("version", None), fields.pop("counted", "")
    whole = {name: int(fields.pop(name, "")) for name in ("log2m", "seed", "limit")}
    options = Options(estimate=fields.pop("estimate", ""), counted=None if counted == "all" else int(counted), version=version, **whole)
    if fields:
        raise ValueError("an option that is not known")
    return options, _READERS[kind]


def lines_of(report: Report) -> Iterator[str]:
    """The lines of a report, with the one before them. ValueError names a label that cannot be saved."""
    labels = report.vertices.label
    kind, texts = _texts_of(labels)
    yield head_of(report.options, kind)
    yield from (f"superstep,{i},{fixed(total)}" for i, total in enumerate(report.totals()))
    yield f"end,{report.end},{'stable' if report.stable else 'limit'}"
    yield f"gain,{fixed(report.gain_millionths())}"
    for place, text in enumerate(texts):
        figures = ",".join(map(fixed, report.vertices.printed(place)))
        yield f"vertex,{quoted(text)},{figures},{report.vertices.empty[place]}"


def fixed(millionths: int) -> str:
    """A number of a report: whole millionths with six digits after the point."""
    return f"{millionths // 10**6}.{millionths % 10**6:06d}"


def millionths_of(number: str) -> int:
    """The whole millionths of such a number."""
    whole, _, digits = number.partition(".")
    if len(digits) != 6:
        raise ValueError("no number of a report")
    return int(whole + digits)


def quoted(field: str) -> str:
    """A field of comma-separated values."""
    return '"' + field.replace('"', '""') + '"' if any(character in field for character in ',"\r\n') else field


def unquoted(field: str) -> str:
    """Such a field as it was."""
    return field[1:-1].replace('""', '"') if field.startswith('"') else field


# The kind of these labels, and their texts.
def _texts_of(labels: List[Any]) -> Tuple[str, List[str]]:
    kinds = set(map(type, labels))
    if kinds == {int}:
        return "numbers", list(map(str, labels))
    if kinds <= {str} and _can_be_written(labels):
        return "texts", labels
    return "literals", list(map(_literal, labels))


def _can_be_written(texts: List[str]) -> bool:
    text = "".join(texts)
    try:
        text.encode("utf-8", "surrogateescape")
    except UnicodeEncodeError:
        return False
    return "\n" not in text


def _literal(label: Any) -> str:
    text = repr(label)
    try:
        if ast.literal_eval(text) == label and _can_be_written([text]):
            return text
    except (ValueError, SyntaxError):
        pass
    raise ValueError(f"the label {label!r} cannot be saved: it is no text, number or tuple of these")
