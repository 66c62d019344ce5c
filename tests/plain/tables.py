"""Random tables and command lines, drawn as streams are."""

ODD_CELLS = [b"", b" ", b'"', b'a"b', b"a,b", b"a\nb", b"a\r", b"\xef\xbb\xbf", b"\x00", b"z" * 64]
BAD_CELLS = [b"", b"z" * 65]


def quoted(rng, cell):
    """A cell as it is spelt in a table."""
    plain = not cell.startswith(b'"') and not any(byte in cell for byte in b",\r\n")
    if plain and rng.random() < 0.7:
        return cell
    half = rng.randrange(len(cell) + 1) if rng.random() < 0.1 else len(cell)
    behind = cell[half:]
    if any(byte in behind for byte in b'",\r\n'):
        half, behind = len(cell), b""
    return b'"' + cell[:half].replace(b'"', b'""') + b'"' + behind


def row_of(rng, pools, version, bad):
    """A row of cells, which at times is bad somewhere."""
    cells = [rng.choice(pool) for pool in pools]
    if version == 2:
        cells.append(rng.choice([b"", b"x", b"a,b", bytes(255)]))
    if rng.random() < bad:
        kind = rng.randrange(5)
        if kind == 0:
            cells.pop()
        elif kind == 1:
            cells[rng.randrange(len(cells))] = rng.choice(BAD_CELLS)
        elif kind == 2:
            cells[-1] = b"y" * 256
        else:
            cells.append(rng.choice([b"", b"more"]))
    return cells


def table_of(rng, width, version):
    """The bytes of a table, mostly a good one."""
    if rng.random() < 0.1:
        alphabet = [b"a", b"b", b",", b'"', b"\n", b"\r", b"\xef\xbb\xbf"]
        return b"".join(rng.choice(alphabet) for _ in range(rng.randrange(12)))
    names = [b"red", b"blue", b"DE"] + rng.sample(ODD_CELLS[1:], 3)
    pools = [rng.sample(names, rng.choice([1, 2, 4])) for _ in range(width)]
    bad = rng.choice([0, 0, 0, 0.3])
    lines = [b"\xef\xbb\xbf"] if rng.random() < 0.1 else []
    for _ in range(rng.choice([0, 1, 3, 9, 20]) if width < 8 else 2):
        lines.append(b",".join(quoted(rng, cell) for cell in row_of(rng, pools, version, bad)))
        lines.append(rng.choice([b"\n", b"\n", b"\r\n", b"\r", b"\n\n"]))
    if len(lines) > 1 and rng.random() < 0.2:
        lines.pop()
    return b"".join(lines)


def spoiled(rng, words):
    """Words that are mostly no command."""
    words = list(words)
    place = rng.randrange(len(words))
    kind = rng.randrange(6)
    if kind == 0:
        del words[place]
    elif kind == 1:
        strays = ["--", "--help", "-e", "x", "", "--epoch=1", "--workers", "2"]
        words.insert(place, rng.choice(strays))
    elif kind == 2:
        words[place] += rng.choice(["x", " ", ",", "0" * 10, "\u0663"])
    elif kind == 3:
        name = words[place].partition("=")[0]
        words[place] = name + "=" + rng.choice(["", "-1", "+7", "4294967296", "0", "1.5", "01"])
    elif kind == 4:
        words += words[1:]
    else:
        words = rng.choice([[], ["look"], words[1:], ["Check"]])
    return words


def words_of(rng, verb, options, spoil=0.04):
    """The words of a command with these options; with a small chance they are spoilt."""
    names = list(options)
    rng.shuffle(names)
    words = [verb]
    for name in names:
        value = str(options[name])
        if value.isdigit() and len(value) < 9 and name != "version" and rng.random() < 0.1:
            value = "0" + value
        words += [f"--{name}={value}"] if rng.random() < 0.3 else [f"--{name}", value]
    return spoiled(rng, words) if rng.random() < spoil else words


def thresholds_of(rng, version):
    """Thresholds as a word, mostly in the range of the version."""
    count = rng.choice([1, 1, 1, 2, 2, 2, 3, 3, 8, 16 if version == 2 else 8])
    numbers = [rng.choice([2, 2, 2, 3, 5, 17]) for _ in range(count)]
    if rng.random() < 0.04:
        numbers[0] = rng.choice([0, 1, 512, 513, 600, 4_096, 4_097])
    if rng.random() < 0.02:
        numbers *= 9
    return numbers
