#!/usr/bin/env python3
"""Draws the pictures of docs/pictures: python3 docs/pictures/draw.py

Run it after a change of crates.txt or of this file. It needs only the standard library. Each picture has a function
draw_NAME. `Picture` has the shapes, and refuses text that is too wide for its box.
"""
from functools import lru_cache
from html import escape
from pathlib import Path

HERE = Path(__file__).resolve().parent
TOP = HERE.parent.parent
BLUE = "#dbe9f6"
EDGE = "#2b6cb0"
GREY = "#eeeeee"


def width_of(text, size, bold=False):
    """About how wide a text is, in pixels."""
    narrow = sum(1 for letter in text if letter in "iljtf.,:;'()[] |!")
    return (len(text) * 0.62 - narrow * 0.24) * size * (1.1 if bold else 1)


class Picture:
    """An SVG picture in the making."""

    def __init__(self, width, height, title):
        self.size = (width, height)
        self.title = title
        self.shapes = []

    def text(self, x, y, text, size=14, anchor="middle", bold=False, colour="#000000"):
        style = ' font-weight="bold"' if bold else ""
        attributes = f'x="{x:g}" y="{y:g}" font-size="{size}" text-anchor="{anchor}" fill="{colour}"'
        self.shapes.append(f"<text {attributes}{style}>{escape(text)}</text>")

    def rect(self, x, y, width, height, fill="#ffffff", stroke="#000000", round=4, dash=False, line=1.2):
        dashes = ' stroke-dasharray="5 4"' if dash else ""
        self.shapes.append(
            f'<rect x="{x:g}" y="{y:g}" width="{width:g}" height="{height:g}" rx="{round}" fill="{fill}" '
            f'stroke="{stroke}" stroke-width="{line}"{dashes}/>')

    def box(self, x, y, width, height, lines, fill="#ffffff", size=14, dash=False, bold=True, round=4):
        """A box with lines of text in its middle, the first of them bold."""
        self.rect(x, y, width, height, fill, dash=dash, round=round)
        step = size + 5
        first = y + height / 2 - step * (len(lines) - 1) / 2 + size * 0.36
        for index, line in enumerate(lines):
            is_bold = bold and index == 0
            letters = size if index == 0 else size - 1
            if width_of(line, letters, is_bold) > width - 6:
                raise ValueError(f"{self.title}: '{line}' is too wide for its box")
            self.text(x + width / 2, first + index * step, line, letters, bold=is_bold)

    def line(self, points, arrow=True, colour="#000000", dash=False):
        """A line through points, with an arrow at its end."""
        self.path("M" + " L".join(f"{x:g} {y:g}" for x, y in points), arrow, colour, dash)

    def path(self, path, arrow=True, colour="#000000", dash=False):
        """A line along an SVG path."""
        end = f' marker-end="url(#{"blue" if colour == EDGE else "black"})"' if arrow else ""
        dashes = ' stroke-dasharray="5 4"' if dash else ""
        self.shapes.append(f'<path d="{path}" fill="none" stroke="{colour}" stroke-width="1.3"{end}{dashes}/>')

    def write(self, name):
        width, height = self.size
        mark = ('<marker id="{}" viewBox="0 0 10 10" refX="9" refY="5" markerWidth="8" markerHeight="8" orient="auto">'
                '<path d="M0 0 L10 5 L0 10 z" fill="{}"/></marker>')
        lines = [
            f'<svg xmlns="http://www.w3.org/2000/svg" width="{width}" height="{height}" viewBox="0 0 {width} {height}" '
            'font-family="Helvetica, Arial, sans-serif">',
            f"<title>{escape(self.title)}</title>",
            f'<defs>{mark.format("black", "#000000")}{mark.format("blue", EDGE)}</defs>',
            f'<rect width="{width}" height="{height}" fill="#ffffff"/>',
            *self.shapes,
            "</svg>"]
        (HERE / name).write_text("\n".join(lines) + "\n")


# --- the crates ---------------------------------------------------------------------------------------------------

def read_crates():
    """Each crate of crates.txt with the crates of this repository that it names."""
    named = {}
    for line in (TOP / "crates.txt").read_text().splitlines():
        line = line.split("#")[0].strip()
        if line:
            head, rest = line.split(":", 1)
            named[head.split()[0]] = rest.split()
    return {crate: [low for low in below if low in named] for crate, below in named.items()}


def direct(crates):
    """The crates without what follows from the rest: a crate below another that is named too is left out."""
    @lru_cache(None)
    def below(crate):
        return frozenset(crates[crate]).union(*(below(low) for low in crates[crate]))
    return {
        crate: [low for low in lows if not any(low in below(other) for other in lows)]
        for crate, lows in crates.items()}


def layers_of(edges):
    """A layer for each crate: above all that it uses, and not lower than it needs to be."""
    layer = {}

    def depth(crate):
        if crate not in layer:
            layer[crate] = 1 + max((depth(low) for low in edges[crate]), default=-1)
        return layer[crate]
    for crate in edges:
        depth(crate)
    users = {crate: [user for user in edges if crate in edges[user]] for crate in edges}
    for crate in sorted(edges, key=lambda crate: -layer[crate]):
        if users[crate] and len(users[crate]) >= len(edges[crate]):
            layer[crate] = min(layer[user] for user in users[crate]) - 1
    return layer


def neighbours(chains):
    """What each node is joined with: a crate, or the point at which a line passes a layer."""
    near = {}
    for chain in chains:
        for one, other in zip(chain, chain[1:]):
            near.setdefault(one, []).append(other)
            near.setdefault(other, []).append(one)
    return near


def mean(numbers):
    return sum(numbers) / len(numbers)


def rows_of(edges, layer):
    """The crates of each layer in an order with few crossings, and what each line passes in the layers between."""
    rows = [[] for _ in range(1 + max(layer.values()))]
    for crate in edges:
        rows[layer[crate]].append(crate)
    chains = []
    for user, lows in edges.items():
        for low in lows:
            between = [(user, low, level) for level in range(layer[user] - 1, layer[low], -1)]
            for node in between:
                rows[node[2]].append(node)
            chains.append([user, *between, low])
    near = neighbours(chains)
    at = {one: float(index) for row in rows for index, one in enumerate(row)}
    for turn in range(60):
        for row in rows if turn % 2 else reversed(rows):
            wanted = {one: mean([at[other] for other in near[one]]) for one in row}
            row.sort(key=lambda one: wanted[one])
            first = mean(wanted.values()) - (len(row) - 1) / 2
            at.update({one: first + index for index, one in enumerate(row)})
    return rows, chains


GAP = 14


def from_left(wanted, row, sizes, low):
    """Positions for a row, each the least that is not before the wanted one and leaves room for those before it."""
    positions, edge = {}, low
    for one in row:
        positions[one] = max(wanted[one], edge + sizes[one] / 2)
        edge = positions[one] + sizes[one] / 2 + GAP
    return positions


def from_right(wanted, row, sizes, high):
    """Positions for a row, as `from_left` finds them, but from the right end of the row."""
    mirrored = from_left({one: -wanted[one] for one in row}, row[::-1], sizes, -high)
    return {one: -position for one, position in mirrored.items()}


def settle(wanted, row, sizes, low, high):
    """Positions for a row from left to right, near those that are wanted, with room between them."""
    left, right = from_left(wanted, row, sizes, low), from_right(wanted, row, sizes, high)
    middle = {one: (left[one] + right[one]) / 2 for one in row}
    return from_right(from_left(middle, row, sizes, low), row, sizes, high)


def positions_in(rows, chains, sizes, low, high):
    """Where each node is from left to right: near what it is joined with."""
    near = neighbours(chains)
    x = {one: low + (high - low) * (at + 1) / (len(row) + 1) for row in rows for at, one in enumerate(row)}
    for turn in range(80):
        for row in rows if turn % 2 else reversed(rows):
            wanted = {one: mean([x[other] for other in near[one]]) for one in row}
            x.update(settle(wanted, row, sizes, low, high))
    least = min(x[one] - sizes[one] / 2 for one in x)
    most = max(x[one] + sizes[one] / 2 for one in x)
    stretch = max((high - low) / (most - least), 1)
    return {one: low + sizes[one] / 2 + (x[one] - sizes[one] / 2 - least) * stretch for one in x}


def box_width(crate):
    return width_of(short(crate), 14, True) + 20


def draw_crates():
    edges = direct(read_crates())
    lone = [crate for crate in edges if not edges[crate] and not any(crate in lows for lows in edges.values())]
    for crate in lone:
        del edges[crate]
    rows, chains = rows_of(edges, layers_of(edges))
    step, half = 78, 17
    height = 50 + step * len(rows)
    sizes = {one: box_width(one) if isinstance(one, str) else 10 for row in rows for one in row}
    x = positions_in(rows, chains, sizes, 20, 980)
    width = max(1000, round(max(x[one] + sizes[one] / 2 for one in x)) + 20)
    picture = Picture(width, height, "The crates, and which of them each one uses")
    y = {one: height - 80 - step * level for level, row in enumerate(rows) for one in row}
    for user, *between, low in chains:
        points = [(x[user], y[user] + half)]
        for one in between:
            points += [(x[one], y[one] - half), (x[one], y[one] + half)]
        picture.line(points + [(x[low], y[low] - half)], colour=EDGE)
    for one in x:
        if isinstance(one, str):
            draw_crate(picture, one, x[one] - sizes[one] / 2, y[one] - half, 2 * half)
    at = 20
    for crate in lone:
        draw_crate(picture, crate, at, height - 40, 28)
        at += box_width(crate) + 8
    if lone:
        picture.text(at, height - 21, "used by no other crate yet", 13, "start")
    about = ("Names are without cfdp_. Blue: a program, or the C library. Dashed: only tests.",
             "An arrow goes from a crate to one that it uses, unless a longer way leads there too.")
    for index, line in enumerate(about):
        picture.text(980, height - 32 + 19 * index, line, 13, "end")
    picture.write("crates.svg")


def draw_crate(picture, crate, x, y, height):
    picture.box(x, y, box_width(crate), height, [short(crate)], fill=fill_of(crate), dash=is_test(crate))


def short(crate):
    return crate.removeprefix("cfdp_")


def is_test(crate):
    """Whether the one module of a crate is its tests."""
    root = TOP / "crates" / crate / "src" / "lib.rt"
    lines = root.read_text().splitlines() if root.exists() else []
    modules = [line.strip() for line in lines if line.strip().endswith(";") and "mod " in line]
    return modules == ["mod tests;"]


def fill_of(crate):
    is_program = (TOP / "crates" / crate / "src" / "main.rt").exists()
    is_library = any(line.startswith(f"{crate} ") and "staticlib" in line.split(":")[0]
                     for line in (TOP / "crates.txt").read_text().splitlines())
    return BLUE if is_program or is_library else "#ffffff"


# --- the phases of a transaction ----------------------------------------------------------------------------------

PHASE_BOXES = (
    (20, 290, 120, 44, ["not known"], "#ffffff"),
    (240, 130, 150, 54, ["Receiving", "no EOF PDU yet"], BLUE),
    (510, 130, 160, 54, ["Awaiting", "octets missing"], BLUE),
    (780, 130, 150, 54, ["Executing", "an item at a time"], BLUE),
    (240, 448, 150, 48, ["Refused"], GREY),
    (510, 448, 160, 48, ["Ended", "with a condition"], GREY),
    (780, 448, 150, 48, ["Done"], GREY),
)
PHASE_ARROWS = (
    [(80, 290), (80, 157), (240, 157)],
    [(80, 334), (80, 472), (240, 472)],
    [(110, 334), (110, 374), (550, 374), (550, 448)],
    [(390, 157), (510, 157)],
    [(670, 157), (780, 157)],
    [(340, 130), (340, 104), (830, 104), (830, 130)],
    [(300, 130), (300, 46), (970, 46), (970, 472), (930, 472)],
    [(880, 184), (880, 448)],
    [(855, 548), (40, 548), (40, 334)],
)
PHASE_EVENTS = (
    (88, 124, "Metadata PDU:", "start"),
    (88, 142, "list granted", "start"),
    (88, 446, "Metadata PDU:", "start"),
    (88, 464, "list refused", "start"),
    (122, 366, "Metadata PDU: a file with a checksum type other than 0 and 15", "start"),
    (450, 149, "EOF PDU:", "middle"),
    (450, 174, "octets missing", "middle"),
    (725, 149, "File Data PDU:", "middle"),
    (725, 174, "nothing missing", "middle"),
    (585, 97, "EOF PDU: nothing missing, or no file but requests", "middle"),
    (635, 38, "EOF PDU: neither a file nor a request", "middle"),
    (555, 233, "check: below the limit", "middle"),
    (790, 233, "step: items left", "middle"),
    (872, 340, "step: the last item", "end"),
    (590, 566, "take: the outcome is handed out, and the transaction is forgotten", "middle"),
)
PHASE_FAULTS = (
    ("any live phase", "a cancel (condition 15); an EOF PDU with a condition (that one)"),
    ("Receiving", "an octet past the file's greatest size, or an EOF PDU with a size that does not fit (6); "
                  "a wrong checksum (5)"),
    ("Awaiting", "an octet past the size that the EOF PDU gave (6); a wrong checksum (5); the check at the limit (10)"),
)
PHASE_REST = ("Every other event leaves the phase as it is. "
              "A list of more than 64 requests is refused, and its transaction stays not known.")


def draw_phases():
    picture = Picture(1000, 700, "The phases of a transaction, and the events between them")
    picture.rect(210, 76, 736, 188, fill="#f7fafd", stroke=EDGE, dash=True)
    picture.text(326, 256, "live: paths leased, blocks reserved", 13, "start", colour=EDGE)
    picture.rect(210, 420, 736, 96, fill="#fafafa", stroke="#666666", dash=True)
    picture.text(222, 438, "over: outcome kept until taken", 13, "start", colour="#444444")
    for x, y, width, height, lines, fill in PHASE_BOXES:
        picture.box(x, y, width, height, lines, fill, round=20 if x == 20 else 4)
    for points in PHASE_ARROWS:
        picture.line(points)
    picture.path("M540 184 C 525 226, 585 226, 570 186")
    picture.path("M790 184 C 775 226, 835 226, 820 186")
    for x, y, text, anchor in PHASE_EVENTS:
        picture.text(x, y, text, 13, anchor)
    for x in (315, 850):
        picture.line([(x, 184), (x, 300), (630, 300)], arrow=False, colour=EDGE)
    picture.line([(640, 184), (640, 448)], colour=EDGE)
    picture.text(480, 292, "a cancel, or a fault (below)", 13, colour=EDGE)
    for x in (315, 590):
        picture.line([(x, 496), (x, 548)], arrow=False)
    picture.line([(855, 496), (855, 548)], arrow=False)
    for index, (phase, faults) in enumerate(PHASE_FAULTS):
        picture.text(20, 612 + 24 * index, phase, 13, "start", bold=True)
        picture.text(140, 612 + 24 * index, faults, 13, "start")
    picture.text(20, 684, PHASE_REST, 13, "start")
    picture.write("phases.svg")


# --- a Metadata PDU's way to the Finished PDU ---------------------------------------------------------------------

LANES = (
    ("caller", 80, ["the caller", "C or Rust"]),
    ("Entity", 260, ["Entity", "cfdp_entity"]),
    ("pdus", 430, ["readers, writers", "cfdp_pdus"]),
    ("Core", 590, ["Core", "cfdp_transactions"]),
    ("verify", 760, ["verify", "cfdp_verifier"]),
    ("store", 915, ["TreeStore", "cfdp_tree"]),
)
# From a lane to a lane; from no lane: the name of what follows.
WAY = (
    ("", "A list is judged before its transaction begins", ""),
    ("caller", "receive: Metadata PDU", "Entity"),
    ("Entity", "read", "pdus"),
    ("pdus", "value, or first fault", "Entity"),
    ("Entity", "Event::Metadata: apply_owned", "Core"),
    ("Core", "the whole list", "verify"),
    ("verify", "kinds and sizes", "store"),
    ("verify", "grant or refusal", "Core"),
    ("Core", "Admitted: paths are leased and blocks reserved. Or Refused, by name", "caller"),
    ("", "The file arrives", ""),
    ("caller", "receive: File Data PDUs", "Entity"),
    ("Entity", "where the octets lie: file_data", "Core"),
    ("Core", "octets go into the transaction's slot", "store"),
    ("caller", "receive: EOF PDU", "Entity"),
    ("Entity", "Event::Eof: apply_owned", "Core"),
    ("Core", "the checksum of what is staged", "store"),
    ("Core", "Complete: all is there with the right checksum. Or Waiting, or Faulted", "caller"),
    ("", "Its items are performed, whenever the caller likes", ""),
    ("caller", "step, while next_runnable names it", "Core"),
    ("Core", "the install, or one request", "store"),
    ("Core", "Installed, or Performed. After the last one leases and reserve go", "caller"),
    ("", "The outcome is sent", ""),
    ("caller", "take, with a buffer", "Entity"),
    ("Entity", "outcome", "Core"),
    ("Entity", "write", "pdus"),
    ("Entity", "Finished PDU", "caller"),
)


def draw_call(picture, start, text, end, y):
    """An arrow from one lane to another, with a text over it. One to the left is a reply."""
    width, middle = width_of(text, 13), (start + end) / 2
    if width > abs(end - start) - 16:
        raise ValueError(f"'{text}' is too wide for its arrow")
    colour = EDGE if end < start else "#000000"
    picture.line([(start, y), (end, y)], colour=colour)
    picture.rect(middle - width / 2 - 2, y - 19, width + 4, 13, stroke="#ffffff", round=0)
    picture.text(middle, y - 7, text, 13, colour=colour)


def draw_way():
    row = 32
    picture = Picture(1000, 100 + row * len(WAY), "The way from a Metadata PDU to the Finished PDU")
    lanes = {lane: x for lane, x, _ in LANES}
    for lane, x, head in LANES:
        picture.line([(x, 64), (x, 84 + row * len(WAY))], arrow=False, colour="#999999", dash=True)
        picture.box(x - 72, 16, 144, 48, head, fill="#ffffff" if lane == "caller" else BLUE)
    for index, (start, text, end) in enumerate(WAY):
        y = 96 + row * index
        if start:
            draw_call(picture, lanes[start], text, lanes[end], y)
        else:
            picture.rect(14, y - 16, 972, 24, fill=GREY, stroke=GREY)
            picture.text(24, y + 1, text, 14, "start", bold=True)
    picture.write("way.svg")


# --- blocks, runs and nodes ---------------------------------------------------------------------------------------

# The first and the last octet of a field, its name, and how wide it is drawn.
FREE_BLOCK = ((0, 1, "next", 56, GREY), (2, 127, "octets that mean nothing", 904, "#ffffff"))
HEADER = (
    (0, 1, "next", 56, GREY), (2, 3, "owner", 56, GREY), (4, 5, "rank", 56, GREY), (6, 6, "kind", 40, GREY),
    (7, 7, "", 22, "#ffffff"))
PAYLOAD = ((8, 127, "payload: octets of a file, or of one that arrives", 730, BLUE),)
NODE = (
    (8, 9, "parent", 58, BLUE), (10, 11, "first", 52, BLUE), (12, 13, "last", 52, BLUE), (14, 17, "size", 56, BLUE),
    (18, 18, "is a/file", 44, BLUE), (19, 19, "name/length", 54, BLUE), (20, 21, "same/head", 54, BLUE),
    (22, 23, "next/entry", 54, BLUE), (24, 25, "entry/before", 54, BLUE), (26, 29, "sum", 44, BLUE),
    (30, 31, "", 22, "#ffffff"), (32, 127, "name, at most 96 octets", 186, BLUE))
ARENA_BOXES = (
    (30, 400, 168, 44, ["index heads", "one for each block"], "#ffffff"),
    (30, 480, 168, 44, ["the root's first entry", "and how many"], "#ffffff"),
    (30, 530, 168, 44, ["ways back", "one for each block"], "#ffffff"),
    (30, 580, 168, 44, ["slot 0 of 64", "run, size, sum, at"], "#ffffff"),
    (300, 468, 130, 66, ["block 0: a node", "directory d", "1 entry"], BLUE),
    (500, 468, 130, 66, ["block 1: a node", "file f, 300", "parent 0"], BLUE),
    (500, 396, 126, 50, ["block 2: rank 0", "octets 0 to 119"], "#ffffff"),
    (660, 396, 126, 50, ["block 3: rank 1", "120 to 239"], "#ffffff"),
    (820, 396, 126, 50, ["block 4: rank 2", "240 to 299"], "#ffffff"),
    (500, 578, 126, 50, ["block 5: rank 0", "what arrived"], "#ffffff"),
    (660, 578, 126, 50, ["block 6: rank 1", "what arrived"], "#ffffff"),
    (850, 578, 116, 50, ["block 7, ..", "not made yet"], GREY),
)
# From block to block of a run.
NEXT_LINKS = ([(626, 421), (660, 421)], [(786, 421), (820, 421)], [(626, 603), (660, 603)])
# Each other link, with its name and where that is written.
LINKS = (
    ([(198, 502), (300, 502)], "first", 250, 496),
    ([(198, 422), (264, 422), (264, 486), (300, 486)], "hash", 247, 416),
    ([(430, 501), (500, 501)], "first", 465, 495),
    ([(563, 468), (563, 446)], "first", 583, 461),
    ([(630, 501), (883, 501), (883, 446)], "last", 840, 495),
    ([(198, 603), (500, 603)], "first", 349, 597),
)
ARENA_NOTES = (
    (114, 644, "made once by TreeStore::new,", 12, "middle"),
    (114, 660, "never made longer", 12, "middle"),
    (946, 384, "a run: each block names the next one, its owner (block 2) and its rank", 12, "end"),
    (608, 672, "An install gives the run of a slot to a node. A rename changes the node alone, and a few links.",
     13, "middle"),
    (20, 716, "A directory's size is the number of its entries, and its first block is the node of its first entry.",
     13, "start"),
    (20, 738, "Numbers of blocks have two octets, the low one first. A file's name is in its node, "
              "and its path is the way up to the root.", 13, "start"),
)


def draw_block(picture, y, name, fields):
    """A block of 128 octets as a row of fields."""
    picture.text(20, y - 10, name, 14, "start", bold=True)
    x = 20
    for first, last, text, width, fill in fields:
        picture.rect(x, y, width, 40, fill, round=0)
        for line, part in enumerate(text.split("/")):
            at = y + 17 + 16 * line if "/" in text else y + 25
            picture.text(x + width / 2, at, part, 12)
        picture.text(x + 3, y + 54, str(first), 11, "start", colour="#444444")
        if last != first and width > 40:
            picture.text(x + width - 3, y + 54, str(last), 11, "end", colour="#444444")
        x += width


def draw_arena():
    picture = Picture(1000, 760, "Blocks, runs and nodes of the filestore")
    draw_block(picture, 40, "A block that was given back", FREE_BLOCK)
    draw_block(picture, 136, "A block of a run: 8 octets of links, 120 octets of payload", HEADER + PAYLOAD)
    draw_block(picture, 232, "A node: one file or directory", HEADER + NODE)
    example = "An example: directory d with a file d/f of 300 octets, and a file that arrives in slot 0"
    picture.text(20, 340, example, 14, "start", bold=True)
    picture.rect(14, 356, 200, 330, dash=True)
    picture.text(114, 378, "beside the arena", 14, bold=True)
    picture.rect(230, 356, 756, 330, fill="#f7fafd", stroke=EDGE, dash=True)
    picture.text(246, 378, "the arena", 14, "start", bold=True, colour=EDGE)
    for x, y, width, height, lines, fill in ARENA_BOXES:
        picture.box(x, y, width, height, lines, fill, size=13)
    for points in NEXT_LINKS:
        picture.line(points)
    for points, name, x, y in LINKS:
        picture.line(points, colour=EDGE)
        picture.text(x, y, name, 12, colour=EDGE)
    for x, y, text, size, anchor in ARENA_NOTES:
        picture.text(x, y, text, size, anchor)
    picture.write("arena.svg")


# --- who holds the lock -------------------------------------------------------------------------------------------

# What a worker does before it takes the lock, and how wide it is drawn.
BEFORE_LOCK = (
    (["takes a", "message"], 88), (["passes", "the gate"], 80), (["reads", "the PDU"], 76),
    (["makes room for", "its receipt"], 124))
LOCK_NOTES = (
    "Whenever the lock is taken and whenever it is given back, the journal is a history of one thread, "
    "and the core is sound.",
    "accept: the core takes the event (apply_both), and the journal gets one entry, unless it is out of memory "
    "or the journal is full.",
    "A run looks for a step in one hold of the lock and takes it in the next: "
    "other workers' events may come between.",
)


def draw_worker(picture, seat, start, waits, y, lock):
    """A worker's message from left to right; `lock` is where what it does under the lock is drawn from above."""
    picture.text(20, y - 14, f"worker, seat {seat}", 14, "start", bold=True)
    x = start
    for lines, width in BEFORE_LOCK:
        picture.box(x, y, width, 46, lines, size=13, bold=False)
        x += width
    if waits:
        picture.box(x, y, waits, 46, ["waits"], fill=GREY, size=13, bold=False)
        x += waits
    end = x + 172
    near = lock if y < lock else lock + 50
    picture.box(x, lock, end - x, 50, ["Journaled::accept", f"one event of seat {seat}"], fill=BLUE, size=13)
    picture.line([(x, y + 23), (x + 10, y + 23), (x + 10, near)])
    picture.line([(end - 10, near), (end - 10, y + 23), (end, y + 23)])
    picture.box(end, y, 106, 46, ["keeps", "the receipt"], size=13, bold=False)


def draw_lock():
    picture = Picture(1000, 480, "Who holds the lock when workers share an engine")
    picture.rect(14, 144, 972, 84, fill="#f7fafd", stroke=EDGE, dash=True)
    picture.text(24, 164, "under the lock: the core with its journal", 14, "start", bold=True, colour=EDGE)
    draw_worker(picture, 0, 20, 0, 50, 170)
    draw_worker(picture, 1, 60, 132, 290, 170)
    picture.line([(20, 374), (980, 374)])
    picture.text(980, 392, "time", 13, "end")
    for index, text in enumerate(LOCK_NOTES):
        picture.text(20, 412 + 24 * index, text, 13, "start")
    picture.write("lock.svg")


def main():
    for draw in (draw_crates, draw_phases, draw_way, draw_arena, draw_lock):
        draw()


if __name__ == "__main__":
    main()
