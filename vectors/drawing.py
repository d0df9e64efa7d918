"""The conflicts of a block as a graph in DOT, in the lines of `fabcommit explain --dot`: written from docs/cli.md, over the lines of
`explain`, and not from the crates.
"""

from explaining import NAMES

LOOKS = {0: ("ellipse", "#dcefdc"), 9: ("trapezium", "#cfe2f7"), 10: ("house", "#fbe3b6"), 11: ("octagon", "#f8c9c4"), 12: ("hexagon", "#e3cdf2")}
HEAD = """\
  rankdir=RL
  node [fontname="sans-serif", fontsize=12, style=filled]
  edge [fontname="sans-serif", fontsize=10]
"""


def writer(words, number):
    """Who wrote what `is` there, and with `by` in this block: a block and a place, or nothing."""
    if words[-2:-1] == ["by"]:
        return number, int(words[-1])
    there = words[words.index("is") + 1 :]
    return None if there[0] == "absent" else (int(there[0]), int(there[1]))


def edge_of(number, flag, reason):
    """The block and place that a reason names, and what about; or nothing."""
    match flag, *reason:
        case 9, "used", block, place, *_:
            return (int(block), int(place)), "id"
        case 10, "touched", name, key, place:
            return (number, int(place)), f"{name} {key}"
        case 11, "read", name, key, "was", *versions:
            return writer(versions, number), f"{name} {key}"
        case 12, "range", name, _, _, "key", key, "was", *versions:
            versions = [word for word in versions if word not in ("all", "part")]
            return writer(versions, number), f"{name} {key}"
    return None, None


def quoted(text):
    return text.replace("\\", "\\\\").replace('"', '\\"').replace("&", "&amp;")


def node(place, flag):
    shape, colour = LOOKS.get(flag, ("box", "#e6e6e6"))
    return f'  t{place} [label="{place}\\n{flag} {NAMES[flag]}", shape={shape}, fillcolor="{colour}"]\n'


def drawn(number, lines, all=False):
    """The graph of a block of which the lines of `explain` are given, without the first."""
    flags, edges = [], []
    for line in lines:
        _, flag, _, *reason = line.split()
        flags.append(int(flag))
        edges.append(edge_of(number, int(flag), reason))
    named = {to[1] for to, _ in edges if to and to[0] == number}
    text = f'digraph "block {number}" {{\n{HEAD}'
    for place, (flag, (to, about)) in enumerate(zip(flags, edges)):
        if all or to or place in named:
            text += node(place, flag)
        if to and to[0] == number:
            text += f'  t{place} -> t{to[1]} [label="{quoted(about)}"]\n'
        elif to:
            small = "b{}_{}".format(*to)
            text += '  {} [label="{} {}", shape=plain, style="", fontsize=10]\n'.format(small, *to)
            text += f'  t{place} -> {small} [label="{quoted(about)}"]\n'
    return text + "}\n"
