"""A mesh of 4,000 elements, for the checks of the page: its configuration, and a picture of it in
the form of the program's pictures, for tools/page_mock.py.

The mesh has 13 rows and 50 columns, and a source above each column. At each place a packet passes a
Counter, a Queue, an Unqueue, a Counter and a Null. Then a Switch sends it to the next row, in the
same column or the next one, or to the row after that, seven columns further. The picture is a grid,
so its boxes are at other places than in the picture of the program.
"""

COLUMNS, ROWS = 50, 13
# The classes at a place of the mesh, from top to bottom, with the letter that begins their names.
PLACE = (("c", "Counter"), ("q", "Queue"), ("u", "Unqueue"), ("d", "Counter"), ("n", "Null"), ("w", "Switch"))
TEXTS = {"InfiniteSource": "ab, -1, 1", "Queue": "64", "Switch": "0"}
# The inputs and outputs of each class: each is a push port, a pull port, or agnostic and push.
PORTS = {"InfiniteSource": ("", "p"), "Counter": ("a", "a"), "Queue": ("p", "l"), "Unqueue": ("l", "p"), "Null": ("a", "a"), "Switch": ("p", "ppp"), "Discard": ("a", "")}
# The width of a column and the height of a row of the picture, the height of a box, and the margin,
# in pixels.
RIGHT, DOWN, HEIGHT, MARGIN = 150, 90, 46, 40


def elements():
    """Returns the name, class, column and row of each element, in flat order."""
    found = []
    for column in range(COLUMNS):
        found.append((f"s{column}", "InfiniteSource", column, 0))
        for row in range(ROWS):
            found += [(f"{letter}{column}_{row}", kind, column, 1 + row * len(PLACE) + at) for at, (letter, kind) in enumerate(PLACE)]
    return found + [(f"e{column}", "Discard", column, 1 + ROWS * len(PLACE)) for column in range(COLUMNS)]


def exits(column, row):
    """Returns the elements after the Switch at a place, in the order of its outputs."""
    if row == ROWS - 1:
        return [f"e{column}"] * 3
    return [f"c{column}_{row + 1}", f"c{(column + 1) % COLUMNS}_{row + 1}", f"c{(column + 7) % COLUMNS}_{min(row + 2, ROWS - 1)}"]


def chains():
    """Returns the names of the elements of each place, from top to bottom, with the source above."""
    return {(column, row): [f"s{column}"] * (row == 0) + [f"{letter}{column}_{row}" for letter, _ in PLACE] for column in range(COLUMNS) for row in range(ROWS)}


def connections():
    """Returns each connection: an element, its output, and the element after it, at input 0."""
    found = [(before, 0, after) for names in chains().values() for before, after in zip(names, names[1:])]
    return found + [(f"w{column}_{row}", port, after) for column, row in chains() for port, after in enumerate(exits(column, row))]


def text():
    """Returns the configuration, which is short enough for an argument of a program."""
    kinds = {name: kind for name, kind, _, _ in elements()}
    said = {name: f"{name}::{kind}" + (f"({TEXTS[kind]})" if kind in TEXTS else "") for name, kind in kinds.items()}
    lines = ["->".join(said[it] for it in names) + ";\n" for names in chains().values()]
    lines += [said[f"e{column}"] + ";\n" for column in range(COLUMNS)]
    return "".join(lines + [f"w{column}_{row}[{port}]->{after};\n" for column, row in chains() for port, after in enumerate(exits(column, row))])


def outline(name, x, y, is_agnostic, inner, rim):
    """Returns the mark of a port, with a second outline if it is agnostic."""
    mark = f'<path class="{name}" d="M{x} {y}{inner}"/>'
    return mark + (f'<path class="rim" d="{rim}"/>' if is_agnostic else "")


def marks(kind, width):
    """Returns the marks of the ports of a box, and the distances of its outputs from its left side."""
    drawn, places = "", []
    for is_output, ports in enumerate(PORTS[kind]):
        for at, port in enumerate(ports):
            x, name = width // 2 + 20 * at - 10 * (len(ports) - 1), "pull" if port == "l" else "push"
            if is_output:
                drawn += outline(name, x - 4, HEIGHT - 7, port == "a", "h8v7h-8z", f"M{x - 7} {HEIGHT - 10}h14v10h-14z")
                places.append(x)
            else:
                drawn += outline(name, x - 5, 0, port == "a", "h10l-5 7z", f"M{x - 9} 0h18l-9 12z")
    return drawn, places


def picture(head):
    """Returns a picture of the mesh. `head` is its style, with the tip of a line."""
    boxes, ends, figures, lines = {}, {}, [], []
    for at, (name, kind, column, row) in enumerate(elements()):
        width = 8 * max(len(name), len(kind)) + 20
        x, y = MARGIN + column * RIGHT + (RIGHT - width) // 2, MARGIN + row * DOWN
        drawn, places = marks(kind, width)
        ribs = "".join(f'<path class="rib" d="M0 {below}h{width}"/>' for below in (36, 39, 42)) if kind == "Queue" else ""
        texts = f'<text y="21" x="{width // 2}">{name}</text><text class="class" y="33" x="{width // 2}">{kind}</text>'
        figures.append(f'<g id="e{at}" transform="translate({x},{y})"><rect class="box" width="{width}" height="{HEIGHT}"/>{ribs}{texts}{drawn}</g>\n')
        boxes[name], ends[name] = (x + width // 2, y), [(x + place, y + HEIGHT) for place in places]
    for at, (before, port, after) in enumerate(connections()):
        (left, top), (right, bottom) = ends[before][port], boxes[after]
        middle = [((left + right) // 2, (top + bottom) // 2)] if bottom - top > DOWN else []
        points = " ".join(f"{x},{y}" for x, y in [(left, top), *middle, (right, bottom)])
        lines.append(f'<polyline id="c{at}" points="{points}"/>\n')
    wide, high = 2 * MARGIN + COLUMNS * RIGHT, 2 * MARGIN + (2 + ROWS * len(PLACE)) * DOWN
    root = f'<svg xmlns="http://www.w3.org/2000/svg" width="{wide}" height="{high}" viewBox="0 0 {wide} {high}">\n'
    return root + head + "".join(lines + figures) + "</svg>\n"
