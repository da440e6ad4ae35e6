"""What a run tells unasked on standard error, worked out as docs/FORMATS.md says it, with nothing of the program."""
import re

from oracle import DEFAULTS, DELIMITERS, RANGES, records_of


def hint_of(text, delimiter, counted):
    """What is probably wrong with an input: how it begins, or that no record has two fields, and each has another delimiter."""
    if text.startswith(b"\x1f\x8b"):
        return "the input is compressed (gzip): zcat FILE | hyperball run .."
    if text.startswith(b"%%MatrixMarket"):
        return ("the input is a Matrix Market file: grep -v '^%' FILE | tail -n +2 | cut -d ' ' -f 1,2 | "
                "hyperball run --delimiter space ..")
    edges = re.split(rb"(?:\A|(?<=\n))%%(?:\r?\n|\Z)", text, maxsplit=1)[0] if counted else text
    records = [fields for _, fields in records_of(edges, delimiter)]
    for name, other in DELIMITERS.items():
        if records and all(len(fields) == 1 and other in fields[0] for fields in records):
            return f"no line has two fields; each has a {name}: --delimiter {name}?"
    return None


def lines_of(words, text):
    """The lines: of the first number that no plan has, and of what is probably wrong with the input."""
    wish = {**DEFAULTS, **dict(re.findall(r"--(\w+)[ =](\w+)", " ".join(words)))}
    for name, (least, most) in RANGES.items():
        if not least <= int(wish[name]) <= most:
            yield (f"no plan has {name} {wish[name]} ({least} to {most} are allowed): "
                   "the job will be refused once the edge list is read")
            break
    hint = hint_of(text, DELIMITERS[wish["delimiter"]], "--counted" in words)
    if hint is not None:
        yield hint


def told_of(words, text):
    """These lines as they are written, before a fault."""
    return "".join(f"hyperball: {line}\n" for line in lines_of(words, text)).encode()
