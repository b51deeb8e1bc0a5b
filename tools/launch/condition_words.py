"""A condition in plain words. Used by tools/launch/picture.py; not a command by itself."""

MOST_PAIRS = 4  # of a Streett condition that are written out


def in_a_row(thing, first, count):
    """Some numbered things in a row, in words."""
    return f"{thing} {first}" if count == 1 else f"{thing}s {first} {'and' if count == 2 else 'to'} {first + count - 1}"


def again(first, count):
    return f"{in_a_row('mark', first, count)} happen{'s' if count == 1 else ''} again and again"


def buchi(table):
    return [f"Büchi {table['count']}: " + (again(0, table["count"]) if table["count"] else "every endless run meets it")]


def streett_pair(table, pair):
    """What a pair asks for."""
    return f"if mark {2 * pair} happens again and again, so does mark {2 * pair + 1}"


def streett(table):
    count = table["count"]
    if count == 0:
        return ["Streett 0: every endless run meets it"]
    if count > MOST_PAIRS:
        return [f"Streett {count}: for each i from 0 to {count - 1}: if mark 2i happens again and again, so does mark 2i+1"]
    return pairs(f"Streett {count}", "each of its pairs is met", streett_pair, table)


def rabin_pair(table, pair):
    need = table["needs"][pair]
    forbidden = sum(1 + before for before in table["needs"][:pair])
    return f"mark {forbidden} happens only finitely often" + (f", and {again(forbidden + 1, need)}" if need else "")


def rabin(table):
    count = table["count"]
    return pairs(f"Rabin {count}", "at least one of its pairs is met", rabin_pair, table) if count else ["Rabin 0: no run meets it"]


def pairs(name, how, pair_words, table):
    """A condition of pairs: the only one, or each on a line of its own."""
    if table["count"] == 1:
        return [f"{name}: {pair_words(table, 0)}"]
    return [f"{name}: {how}"] + [f"pair {pair}: {pair_words(table, pair)}" for pair in range(table["count"])]


def lines(table):
    return {"buchi": buchi, "streett": streett, "rabin": rabin}[table["kind"]](table)
