#!/usr/bin/env python3
"""Writes an edge list of a graph of a given kind and size to standard output.

Usage: generate.py power-law|web|urls|follows|friends RECORDS [SEED [VERTICES]]

power-law: sources are drawn evenly, targets by a power of an even draw, so that few vertices have most of the edges;
           labels come in no order. About one vertex for five records.
web:       pages in the order of a crawl, each with about ten links: most to pages near by, as on one site, some to
           pages that many link to, and a few anywhere. Labels come nearly in order, as a crawl gives them.
urls:      the links that web writes for the same seed, with a long address in place of each number: page 12067 is
           https://www.host12.example.org/dir3/page-7.html. Pages near by are on one site, and begin alike.
follows:   each vertex in turn, with those that it follows: few follow most, and few are followed by most. Labels are
           the numbers below VERTICES (a fourteenth of the records, if none are given), and each of them occurs.
           It writes some millions of records a second, for large graphs.
friends:   the same with each edge both ways, so RECORDS is even.
"""
import random
import sys

STRIDE = 1_000_003


def power_law(records, draw):
    vertices = max(1, records // 5)
    for _ in range(records):
        source = int(draw() * vertices)
        target = int(vertices * draw() ** 3)
        yield source * STRIDE % 4_294_967_291, target * STRIDE % 4_294_967_291


def web(records, draw):
    pages = max(1, records // 10)
    page = 0
    left = records
    while left:
        links = min(left, 1 + int(draw() * 19))
        for _ in range(links):
            kind = draw()
            if kind < 0.8:
                target = max(0, page + int((draw() - 0.6) * 60))
            elif kind < 0.97:
                target = int(pages * draw() ** 4)
            else:
                target = int(pages * draw())
            yield page, target
        left -= links
        page += 1


def address(page):
    """The URL of a page: a site has a thousand of them, twenty in each of its folders."""
    site, place = divmod(page, 1000)
    folder, number = divmod(place, 20)
    return f"https://www.host{site}.example.org/dir{folder}/page-{number}.html"


def urls(records, draw):
    for page, target in web(records, draw):
        yield address(page), address(target)


def lines(edges):
    """A line for each edge."""
    for source, target in edges:
        yield f"{source}\t{target}\n"


DRAWN = 65536  # labels at once, each of which is followed some four times
MOST = DRAWN // 2  # followed by one


def degrees(vertices, records, draw):
    """How many each vertex follows: at least one, on average as many as are left for each, by a power of an even draw."""
    for behind in range(vertices - 1, 0, -1):
        mean = records / (behind + 1)
        many = min(1 + int((mean - 1) / 2 / (1 - draw()) ** 0.5), records - behind, MOST)
        yield many
        records -= many
    yield records


def circles(vertices, records, draw):
    """Each vertex with the labels of those that it follows, which stand next to one another among those drawn."""
    left = 0
    for vertex, many in enumerate(degrees(vertices, records, draw)):
        if left < many:
            drawn = [str(int(vertices * draw() ** 2) * STRIDE % vertices) for _ in range(DRAWN)]
            left = 4 * DRAWN
        first = int(draw() * (DRAWN - many))
        yield vertex, drawn[first : first + many]
        left -= many


def follows(vertices, records, draw):
    """The lines of a vertex."""
    for vertex, followed in circles(vertices, records, draw):
        yield f"{vertex}\t" + f"\n{vertex}\t".join(followed) + "\n"


def friends(vertices, records, draw):
    """The lines of a vertex, and the same lines the other way round."""
    for vertex, known in circles(vertices, records // 2, draw):
        there, back = f"\n{vertex}\t", f"\t{vertex}\n"
        yield there[1:] + there.join(known) + "\n" + back.join(known) + back


def texts(kind, records, draw, vertices):
    """The edge list in pieces."""
    if kind in SMALL:
        return lines(SMALL[kind](records, draw))
    edges, odd = divmod(records, 2) if kind == "friends" else (records, 0)
    if odd or not 1 <= vertices <= edges <= 4096 * vertices:
        sys.exit("generate.py: a vertex follows 1 to 4,096 on average, and friends have an even number of records")
    return LARGE[kind](vertices, records, draw)


SMALL = {"power-law": power_law, "web": web, "urls": urls}
LARGE = {"follows": follows, "friends": friends}


def main():
    if len(sys.argv) not in (3, 4, 5) or sys.argv[1] not in [*SMALL, *LARGE]:
        sys.exit(__doc__)
    records = int(sys.argv[2])
    draw = random.Random(int(sys.argv[3]) if len(sys.argv) > 3 else 1).random
    vertices = int(sys.argv[4]) if len(sys.argv) > 4 else records // 14
    pieces = []
    for text in texts(sys.argv[1], records, draw, vertices):
        pieces.append(text)
        if len(pieces) == 8192:
            sys.stdout.write("".join(pieces))
            pieces.clear()
    sys.stdout.write("".join(pieces))


main()
