#!/usr/bin/env python3
"""Writes a real graph of this machine as an edge list, from what a Debian has anyway.

Usage: bench/real.py packages            which package needs which (apt-cache dumpavail: Depends and Pre-Depends)
       bench/real.py headers [FOLDER]    which C header includes which (/usr/include)
       bench/real.py modules [FOLDER]    which Python module imports which (/usr/lib/python3/dist-packages)
       bench/real.py links [FOLDER]      which HTML page links to which (/usr/share/doc)

Labels are names of packages, paths in the folder, names of modules; a name that something needs and nothing has is a vertex too.
"""
import os
import re
import signal
import subprocess
import sys
from urllib.parse import unquote, urlsplit

FOLDERS = {"headers": "/usr/include", "modules": "/usr/lib/python3/dist-packages", "links": "/usr/share/doc"}


def packages():
    """Of each version that can be installed: all alternatives of all that it needs."""
    said = subprocess.run(["apt-cache", "dumpavail"], stdout=subprocess.PIPE, check=True).stdout.decode("utf-8", "replace")
    for stanza in said.split("\n\n"):
        fields = dict(re.findall(r"^([\w-]+): (.*)$", stanza, re.M))
        if "Package" in fields:
            yield (fields["Package"],)
            for needed in re.split(r"[,|]", ",".join(fields.get(name, "") for name in ("Pre-Depends", "Depends"))):
                if needed.strip():
                    yield fields["Package"], re.match(r"[^\s:(\[]+", needed.strip())[0]


def files(folder, ending):
    """The paths in the folder of its files with this ending, and their texts."""
    for place, folders, names in os.walk(folder):
        folders.sort()
        for name in sorted(names):
            path = os.path.join(place, name)
            if name.endswith(ending) and os.path.isfile(path):
                with open(path, encoding="utf-8", errors="replace") as file:
                    yield os.path.relpath(path, folder), file.read()


def headers(folder):
    """A header in quotes or brackets is beside the one that includes it, or in the folder, or has its name alone."""
    for path, text in files(folder, ".h"):
        yield (path,)
        for name in re.findall(r'^[ \t]*#[ \t]*include[ \t]*[<"]([^>"\n]+)[>"]', text, re.M):
            places = (os.path.normpath(os.path.join(os.path.dirname(path), name)), name, os.path.join("x86_64-linux-gnu", name))
            yield path, next((place for place in places if os.path.isfile(os.path.join(folder, place))), name)


IMPORT = re.compile(r"""^[ \t]*(?:import[ \t]+(?P<modules>[\w., \t]+)
                        |from[ \t]+(?P<dots>\.*)(?P<source>[\w.]*)[ \t]+import[ \t]*(?P<members>\([^)]*|.*))""", re.M | re.X)


def modules(folder):
    """What a line `import a, b` or `from a import b` names; of the latter a.b, if that is a module of the folder, or else a."""
    texts = {re.sub(r"(/__init__)?\.py$", "", path).replace("/", "."): (path, text) for path, text in files(folder, ".py")}
    for name, (path, text) in texts.items():
        yield (name,)
        for found in IMPORT.finditer(text):
            yield from ((name, part.split()[0]) for part in (found["modules"] or "").split(",") if part.split())
            source = found["source"] or ""
            if found["dots"]:  # one is the package that the module is in, each further one the package around
                package = name.split(".")[:None if path.endswith("__init__.py") else -1]
                package = package[:len(package) + 1 - len(found["dots"])]
                source = ".".join([*package, *filter(None, [source])])
            if source:
                inner = [f"{source}.{part}" for part in re.findall(r"(?:^|[(,])\s*(\w+)", found["members"])]
                yield from ((name, other) for other in [member for member in inner if member in texts] or [source])


def links(folder):
    """Links within the folder, without what stands after ? and #."""
    for path, text in files(folder, ".html"):
        yield (path,)
        for address in re.findall(r'<a\b[^>]*?\bhref\s*=\s*["\']([^"\'\s]+)', text, re.I):
            try:
                parts = urlsplit(address)
            except ValueError:
                continue
            if not parts.scheme and not parts.netloc and parts.path and not parts.path.startswith("/"):
                target = os.path.normpath(os.path.join(os.path.dirname(path), unquote(parts.path)))
                if os.path.isfile(os.path.join(folder, target)):
                    yield path, target


def records(kind, folder=None):
    """The records of a graph, each once, without labels that an edge list has no place for."""
    made = packages() if kind == "packages" else {"headers": headers, "modules": modules, "links": links}[kind](folder or FOLDERS[kind])
    return list(dict.fromkeys(record for record in made if all(map(is_label, record))))


def is_label(text):
    return text.strip() == text != "" and not text.startswith("#") and not re.search(r"[\t\r\n]", text)


def main():
    words = sys.argv[1:]
    if len(words) not in (1, 2) or words[0] not in ("packages", *FOLDERS) or words[0] == "packages" and len(words) == 2:
        sys.exit(__doc__)
    signal.signal(signal.SIGPIPE, signal.SIG_DFL)
    sys.stdout.reconfigure(encoding="utf-8", errors="surrogateescape")
    for record in records(*words):
        print("\t".join(record))


if __name__ == "__main__":
    main()
