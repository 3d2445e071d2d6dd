"""The conflicts as a graph: mods from top to bottom in load order, an arc for each pair."""

import math
from collections import Counter
from html import escape

from report_world import REASONS

MOST_MODS = 60
MOST_ARCS = 400
ROW = 24
NAME_LETTERS = 34
LETTER = 8


def graph_of(mods, overwrites):
    """The drawing as SVG, and how many mods and arcs it shows; empty where there is no conflict."""
    weight = Counter()
    for winner, other, reasons, _ in overwrites:
        weight[winner] += reasons.total()
        weight[other] += reasons.total()
    place = {mod: index for index, mod in enumerate(mods)}
    chosen = [mod for mod, _ in weight.most_common(MOST_MODS)]
    chosen.sort(key=lambda mod: place.get(mod, len(place)))
    row = {mod: index for index, mod in enumerate(chosen)}
    arcs = [told for told in overwrites if told[0] in row and told[1] in row][:MOST_ARCS]
    if not arcs:
        return "", 0, 0
    most = max(reasons.total() for _, _, reasons, _ in arcs)
    reach = max(abs(row[winner] - row[other]) for winner, other, _, _ in arcs) * ROW
    left = 20 + LETTER * min(NAME_LETTERS, max(len(mod) for mod in chosen))
    width = left + 40 + int(0.75 * _bulge(reach))
    height = ROW * (len(chosen) + 1)
    shown = [_arc(told, row, most, left) for told in reversed(arcs)]
    shown += [_node(mod, index, left) for mod, index in row.items()]
    return (
        f'<div class="graph"><svg xmlns="http://www.w3.org/2000/svg" width="{width}" '
        f'height="{height}" viewBox="0 0 {width} {height}" role="img" aria-label="conflicts">'
        f"<defs>{''.join(_head(reason) for reason in REASONS)}</defs>{''.join(shown)}</svg></div>",
        len(chosen),
        len(arcs),
    )


def _bulge(reach):
    return 50 + 0.8 * reach


def _head(reason):
    return (
        f'<marker id="head-{reason}" viewBox="0 0 8 8" refX="7" refY="4" markerWidth="11" '
        f'markerHeight="11" markerUnits="userSpaceOnUse" orient="auto">'
        f'<path class="head {reason}" d="M0 0L8 4L0 8z"/></marker>'
    )


# From the mod that loses to the one that wins.
def _arc(told, row, most, left):
    winner, other, reasons, path = told
    reason = max(REASONS, key=lambda name: reasons[name])
    begin, end = _height(row[other]) - 4, _height(row[winner]) + 4
    if row[winner] > row[other]:
        begin, end = begin + 8, end - 8
    side = left + 12 + _bulge(abs(end - begin))
    thick = 1 + 3 * math.log1p(reasons.total()) / math.log1p(most)
    count = reasons.total()
    title = f"{winner} overwrites {count} file{'s' if count > 1 else ''} of {other}: " + ", ".join(
        f"{reasons[name]} by {name}" for name in REASONS if reasons[name]
    )
    return (
        f'<path class="arc {reason}" data-mods="{escape(winner)}&#9;{escape(other)}" '
        f'stroke-width="{thick:.1f}" marker-end="url(#head-{reason})" '
        f'd="M{left + 12} {begin}C{side:.0f} {begin} {side:.0f} {end} {left + 14} {end}">'
        f"<title>{escape(title)}, as {escape(path)}</title></path>"
    )


def _node(mod, index, left):
    name = mod if len(mod) <= NAME_LETTERS else mod[: NAME_LETTERS - 1] + "…"
    height = _height(index)
    return (
        f'<g class="node" data-mod="{escape(mod)}"><circle cx="{left + 6}" cy="{height}" r="5"/>'
        f'<text x="{left - 4}" y="{height + 4}" text-anchor="end">{escape(name)}</text>'
        f"<title>{escape(mod)}</title></g>"
    )


def _height(index):
    return ROW * (index + 1)
