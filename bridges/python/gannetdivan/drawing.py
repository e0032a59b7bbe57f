"""Pictures of a configuration, by matplotlib and networkx: its matrix, and its classes as graphs.

Both libraries are imported where a picture is drawn, and nowhere else.
"""

from __future__ import annotations

import math
from pathlib import Path
from typing import TYPE_CHECKING, Any, Dict, List, Optional, Tuple, Union

from .configuration import Classes, Configuration, class_numbers
from .errors import CohereError
from .palette import MOST_COLOURS, Group, class_colours, class_groups, ink_on
from .unions import join, leader

if TYPE_CHECKING:
    from matplotlib.axes import Axes
    from matplotlib.figure import Figure

__all__ = ["draw_classes", "draw_graph", "draw_matrix", "save"]

# Up to so many points each entry of a matrix has its class printed on it.
_MOST_PRINTED = 64
# Up to so many points each entry is a shape of its own; from there on the matrix is an image.
_MOST_SHAPES = 40
# Where the classes are not printed, at most so many lines part the points each way.
_MOST_RULES = 32
# Rows of a legend in one column, and the width of a column in inches.
_LEGEND_ROWS, _LEGEND_WIDTH = 32, 2.5
# How far the rows of a legend are apart at least, in inches.
_LEAST_STEP = 0.17
# Up to so many points a graph has their numbers on them; up to so many, beside them.
_MOST_INSIDE, _MOST_BESIDE = 24, 64
# As many graphs as one page has.
_MOST_ON_PAGE = 36
# More edges than these are a blot: in a graph, and in one of many on a page.
_MOST_EDGES, _MOST_EDGES_OF_MANY = 2400, 800
_SMALL = 7

_CENTRED = {"ha": "center", "va": "center"}

Place = Dict[int, Tuple[float, float]]


def _figure(width: float, height: float) -> Figure:
    try:
        from matplotlib.figure import Figure
    except ImportError as fault:
        raise CohereError("pictures need matplotlib, which is not installed for this Python") from fault
    return Figure(figsize=(width, height), layout="constrained")


def _networkx() -> Any:
    try:
        import networkx
    except ImportError as fault:
        raise CohereError("pictures of graphs need networkx, which is not installed for this Python") from fault
    return networkx


# What is written into a picture beside it: no date, so that the same picture has the same bytes.
_METADATA: Dict[str, Optional[Dict[str, Any]]] = {
    ".svg": {"Date": None},
    ".png": None,
    ".pdf": {"CreationDate": None},
}


def save(figure: Figure, path: Union[str, Path]) -> None:
    """Write a picture, the same bytes for the same picture.

    Parameters
    ----------
    figure : matplotlib.figure.Figure
    path : str or path
        The file to write. Its name ends in ``.svg``, ``.png`` or ``.pdf``.
    """
    form = Path(path).suffix.lower()
    if form not in _METADATA:
        raise ValueError(f"{path}: a picture's name ends in .svg, .png or .pdf")
    import matplotlib

    # (names of the parts of a file do not change)
    fixed = {"svg.hashsalt": "cohere", "svg.fonttype": "path"}
    with matplotlib.rc_context(fixed):
        figure.savefig(path, dpi=150, metadata=_METADATA[form])


def _said(closure: Configuration) -> str:
    return f"rank {closure.rank} on {closure.points} points"


def _sorted_points(closure: Configuration, by: Optional[Classes]) -> List[List[int]]:
    """Tell the points as they are drawn, block by block: fibres, or the classes of a closed subset."""
    return closure.fibres if by is None else closure.blocks(by)


def nested_blocks(closure: Configuration) -> List[List[List[int]]]:
    """Tell partitions of the points that show blocks in the matrix, each one coarser than the next.

    They are the fibres where there are several, else the classes of closed subsets: of the largest that one class
    generates and that has not all points in one class, of the largest such inside it, and so on.

    Returns
    -------
    list of list of list of int
        Of each partition the blocks, as lists of points.
    """
    if len(closure.fibres) > 1:
        return [closure.fibres]
    found = {frozenset(map(frozenset, it)) for it in _generated(closure)}
    chain: List[List[List[int]]] = []
    above = frozenset([frozenset(range(closure.points))])
    while True:
        inside = [it for it in found if it != above and all(any(block <= large for large in above) for block in it)]
        inside = [it for it in inside if len(it) < closure.points]
        if not inside:
            return chain
        # (of those of one size the first by its blocks, so that the picture does not change)
        above = min(inside, key=lambda it: (len(it), sorted(map(sorted, it))))
        chain.append(sorted(map(sorted, above)))


def _generated(closure: Configuration) -> List[List[List[int]]]:
    """Tell for each class the partition of the points that it generates: the components of its graph."""
    leaders = [list(range(closure.points)) for _ in range(closure.rank)]
    for x, row in enumerate(closure.matrix):
        for y, it in enumerate(row):
            join(leaders[it], x, y)
    partitions = []
    for of_class in leaders:
        blocks: Dict[int, List[int]] = {}
        for x in range(closure.points):
            blocks.setdefault(leader(of_class, x), []).append(x)
        partitions.append(list(blocks.values()))
    return partitions


def _order(closure: Configuration, by: Optional[Classes]) -> Tuple[List[int], List[List[int]]]:
    """Tell the order of the points in a matrix, and where it is ruled: after how many points, coarse and fine."""
    partitions = nested_blocks(closure) if by is None else [closure.blocks(by)]
    place: List[Tuple[int, ...]] = [()] * closure.points
    for blocks in partitions:
        for at, block in enumerate(blocks):
            for x in block:
                place[x] += (at,)
    order = sorted(range(closure.points), key=lambda x: (place[x], x))
    rules, ruled = [], set()
    for depth, blocks in enumerate(partitions, 1):
        new = [at for at in range(1, len(order)) if place[order[at]][:depth] != place[order[at - 1]][:depth]]
        # (lines between all points, or too many, would hide them)
        if len(new) < min(closure.points - 1, _MOST_RULES if closure.points > _MOST_PRINTED else closure.points):
            rules.append([at for at in new if at not in ruled])
            ruled.update(new)
    return order, rules


def draw_matrix(
    closure: Configuration,
    by: Optional[Classes] = None,
    title: Optional[str] = None,
    classes: Optional[Classes] = None,
) -> Figure:
    """Draw the matrix of classes, with a legend.

    Of up to 64 points each entry has its class on it. Up to 21 classes off the diagonal have a colour each; of more,
    those of one valency share one.

    Parameters
    ----------
    closure : Configuration
    by : int or iterable of int, optional
        A closed subset; points of one class of it are drawn side by side. Where it is left out, so are the points
        of one fibre, or of closed subsets that classes generate (`nested_blocks`). By 0 alone the points of a
        configuration with one fibre keep their order.
    title : str, optional
    classes : int or iterable of int, optional
        The classes that have colours of their own, while all others share one.

    Returns
    -------
    matplotlib.figure.Figure

    Raises
    ------
    ValueError
        There are so many points and classes that the picture would tell nothing.
    """
    chosen = None if classes is None else _known(closure, class_numbers(classes))
    groups = class_groups(closure.classes, chosen)
    _see_that_it_tells(closure, groups, chosen)
    order, rules = _order(closure, by)
    columns = math.ceil(len(groups) / _LEGEND_ROWS)
    rows = min(len(groups), _LEGEND_ROWS)
    least = max(2.4, 0.2 + _LEAST_STEP * (rows + 1))
    per_point = 0.32 if closure.points <= 25 else 0.2 + 0.03 * len(str(closure.rank - 1))
    side = max(least, min(per_point * closure.points, 16.0 if closure.points <= _MOST_PRINTED else 8.0))
    beside = _LEGEND_WIDTH * columns if _has_classes_alone(groups) else 3.6
    figure = _figure(side + 0.6 + beside, side + 0.6)
    axes, legend = figure.subplots(1, 2, width_ratios=[side + 0.6, beside])
    _paint_matrix(axes, closure, order, rules, groups, side)
    if _has_classes_alone(groups):
        _write_legend(legend, groups, columns, height=side + 0.6)
    else:
        _write_legend_of_groups(legend, groups, height=side + 0.6)
    figure.suptitle(title or _said(closure), fontsize=10)
    return figure


def _known(closure: Configuration, chosen: Tuple[int, ...]) -> Tuple[int, ...]:
    for it in chosen:
        if not 0 <= it < closure.rank:
            raise ValueError(f"{closure!r} has no class {it}")
    return chosen


def _has_classes_alone(groups: List[Group]) -> bool:
    return all(not it.said for it in groups)


def _see_that_it_tells(closure: Configuration, groups: List[Group], chosen: Optional[Tuple[int, ...]]) -> None:
    if chosen is not None and len(chosen) > MOST_COLOURS:
        raise ValueError(f"{MOST_COLOURS} colours are told apart, and {len(chosen)} classes were named")
    if closure.points > _MOST_PRINTED and chosen is None and not _has_classes_alone(groups) and len(groups) <= 2:
        raise ValueError(
            f"a picture of {closure!r} would tell nothing: its classes are more than are told apart by colours, and "
            "have one valency; name some of them (--classes), or merge some first"
        )


def _paint_matrix(
    axes: Axes, closure: Configuration, order: List[int], rules: List[List[int]], groups: List[Group], side: float
) -> None:
    colours, count = {row.number: it.colour for it in groups for row in it.classes}, len(order)
    sorted_matrix = [[closure.matrix[x][y] for y in order] for x in order]
    painted = [[colours[it] for it in row] for row in sorted_matrix]
    if count <= _MOST_SHAPES:
        from matplotlib.collections import PolyCollection

        squares = [_square(x, y) for y in range(count) for x in range(count)]
        flat = [it for row in painted for it in row]
        axes.add_collection(PolyCollection(squares, facecolors=flat, edgecolors=flat, linewidths=0.2))
    else:
        axes.imshow(painted, interpolation="nearest")
    if count <= _MOST_PRINTED:
        # One size for all, by which the longest number fits: a digit is some 0.6 of it wide, 72 to an inch.
        size = min(8.0, 72 * side / count * 0.8 / (0.62 * len(str(closure.rank - 1))))
        for y, row in enumerate(sorted_matrix):
            for x, it in enumerate(row):
                # (the layout has nothing to do with it, and measures it for long)
                axes.text(x, y, it, **_CENTRED, fontsize=size, color=ink_on(colours[it])).set_in_layout(False)
    axes.set(xlim=(-0.5, count - 0.5), ylim=(count - 0.5, -0.5), aspect="equal")
    for depth, places in enumerate(rules):
        _rule(axes, places, width=max(1.3 - 0.5 * depth, 0.3) * (1.0 if count <= _MOST_PRINTED else 0.5))
    _label_points(axes, order)


def _square(x: int, y: int) -> List[Tuple[float, float]]:
    return [(x - 0.5, y - 0.5), (x + 0.5, y - 0.5), (x + 0.5, y + 0.5), (x - 0.5, y + 0.5)]


def _rule(axes: Axes, places: List[int], width: float) -> None:
    for at in places:
        # White beside black is seen on every colour.
        for wide, colour in ((2.6 * width, "white"), (width, "black")):
            axes.axhline(at - 0.5, color=colour, linewidth=wide)
            axes.axvline(at - 0.5, color=colour, linewidth=wide)


def _label_points(axes: Axes, order: List[int]) -> None:
    step = 1 if len(order) <= _MOST_PRINTED else math.ceil(len(order) / 32)
    places = range(0, len(order), step)
    labels = [str(order[at]) for at in places]
    axes.set_xticks(places, labels, fontsize=_SMALL, rotation=90 if len(order) > 40 else 0)
    axes.set_yticks(places, labels, fontsize=_SMALL)
    axes.tick_params(length=2)
    axes.xaxis.tick_top()


def _write_legend(axes: Axes, groups: List[Group], columns: int, height: float) -> None:
    """Write a table of the classes: a patch of its colour, valency and transpose."""
    axes.set_axis_off()
    rows = min(len(groups), _LEGEND_ROWS)
    # In inches, so that rows keep their distance whatever the matrix's size is.
    axes.set(xlim=(0, _LEGEND_WIDTH * columns), ylim=(height, 0))
    step = min(0.24, (height - 0.6) / (rows + 1))
    for column in range(columns):
        for right, head in ((0.85, "class"), (1.5, "valency"), (2.35, "transpose")):
            left = _LEGEND_WIDTH * column
            axes.text(left + right, 0.2, head, ha="right", va="center", fontsize=8, fontweight="bold")
    for at, group in enumerate(groups):
        (it,) = group.classes
        left, y = _LEGEND_WIDTH * (at // rows), 0.2 + step * (at % rows + 1)
        _paint_patch(axes, (left + 0.15, y - 0.4 * step), (left + 0.5, y + 0.4 * step), colour=group.colour)
        for right, number in ((0.85, it.number), (1.5, it.valency), (2.35, it.transpose)):
            axes.text(left + right, y, number, ha="right", va="center", fontsize=8 if step > 0.16 else 6)


def _write_legend_of_groups(axes: Axes, groups: List[Group], height: float) -> None:
    """Write what the classes of one colour have in common, how many they are, and the first of them."""
    axes.set_axis_off()
    axes.set(xlim=(0, 3.6), ylim=(height, 0))
    step = min(0.42, (height - 0.3) / max(len(groups), 1))
    for at, group in enumerate(groups):
        y = 0.3 + step * at
        _paint_patch(axes, (0.15, y - 0.3 * step), (0.5, y + 0.3 * step), colour=group.colour)
        count = len(group.classes)
        named = group.said or f"class {group.classes[0].number}, valency {group.classes[0].valency}"
        more = f": {count} class" + ("" if count == 1 else "es") if group.said else ""
        axes.text(0.6, y - 0.2 * step, f"{named}{more}", va="center", fontsize=8)
        if group.said and group.said != "all others":
            axes.text(0.6, y + 0.22 * step, _ranges([it.number for it in group.classes]), va="center", fontsize=6)


def _ranges(numbers: List[int], most: int = 44) -> str:
    """Write rising numbers, those in a row as 3-7, and cut the text."""
    parts: List[List[int]] = []
    for it in numbers:
        if parts and it == parts[-1][1] + 1:
            parts[-1][1] = it
        else:
            parts.append([it, it])
    text = ""
    for start, end in parts:
        text += (" " if text else "") + (str(start) if start == end else f"{start}-{end}")
        if len(text) > most:
            return f"{text} .."
    return text


def _paint_patch(axes: Axes, start: Tuple[float, float], end: Tuple[float, float], colour: Any) -> None:
    from matplotlib.patches import Rectangle

    size = (end[0] - start[0], end[1] - start[1])
    axes.add_patch(Rectangle(start, *size, facecolor=colour, edgecolor="black", linewidth=0.4))


def draw_graph(
    closure: Configuration,
    classes: Classes,
    by: Optional[Classes] = None,
    layout: str = "circle",
    title: Optional[str] = None,
) -> Figure:
    """Draw the graph of some classes, with a key where they are several.

    Parameters
    ----------
    closure : Configuration
    classes : int or iterable of int
        The classes whose pairs are the edges, or the arcs.
    by : int or iterable of int, optional
        A closed subset, as for `draw_matrix`.
    layout : {"circle", "spring"}
        The points on a circle, where no edge runs through a point that is not its own; or where springs
        take them.
    title : str, optional

    Returns
    -------
    matplotlib.figure.Figure

    Raises
    ------
    ValueError
        There are so many edges that the picture would be a blot.
    """
    chosen = _known(closure, class_numbers(classes))
    if len(chosen) > MOST_COLOURS:
        raise ValueError(f"{MOST_COLOURS} colours are told apart, and {len(chosen)} classes were named")
    count = _edges(closure, chosen)
    if count > _MOST_EDGES:
        raise ValueError(
            f"a picture of {count} edges would tell nothing, and up to {_MOST_EDGES} are drawn: draw the matrix, "
            "with these classes in colours (draw matrix --classes), or a quotient"
        )
    side = 6.0 if closure.points <= 100 else 9.0
    has_key = len(edge_colours(closure, chosen)) > 1
    figure = _figure(side + (1.9 if has_key else 0.0), side)
    axes = figure.subplots()
    places = _places(closure, chosen, by, layout)
    _paint_graph(axes, closure, chosen, places, size=1.0)
    if has_key:
        _write_key(axes, closure, chosen)
    named = ("class " if len(chosen) == 1 else "classes ") + " ".join(map(str, chosen))
    axes.set_title(title or f"{named} of {_said(closure)}", fontsize=10)
    return figure


def draw_classes(
    closure: Configuration, by: Optional[Classes] = None, layout: str = "circle", title: Optional[str] = None
) -> Figure:
    """Draw each class as a graph, all on one page, with the points in the same places.

    Of a class and its transpose the first one is drawn. Diagonal classes are left out. Of a class with more than 800
    edges, which would be a blot, the matrix is drawn in place of the graph, with the points sorted as `draw_matrix`
    sorts them.

    Parameters
    ----------
    closure : Configuration
    by, layout, title
        As for `draw_graph`; the springs are the pairs of the first class that is drawn.

    Returns
    -------
    matplotlib.figure.Figure

    Raises
    ------
    ValueError
        There are more than 36 graphs, or none.
    """
    drawn = [it for it in closure.classes if it.pair[0] != it.pair[1] and it.number <= it.transpose]
    if not 0 < len(drawn) <= _MOST_ON_PAGE:
        raise ValueError(f"a page has 1 to {_MOST_ON_PAGE} graphs, and {closure!r} has {len(drawn)}")
    columns = len(drawn) if len(drawn) <= 3 else math.ceil(math.sqrt(len(drawn)))
    rows = math.ceil(len(drawn) / columns)
    side = 3.6 if columns <= 3 else 3.0
    figure = _figure(side * columns, (side + 0.2) * rows + 0.3)
    shown = [it for it in drawn if _edges(closure, (it.number,)) <= _MOST_EDGES_OF_MANY]
    places = _places(closure, ((shown or drawn)[0].number,), by, layout)
    panels = figure.subplots(rows, columns, squeeze=False).ravel()
    for axes, it in zip(panels, drawn):
        if it in shown:
            _paint_graph(axes, closure, (it.number,), places, size=side / 6.0)
        else:
            _paint_class(axes, closure, it.number)
        turned = "" if it.transpose == it.number else f", transpose {it.transpose}"
        instead = "" if it in shown else f"\nthe matrix, since {_edges(closure, (it.number,))} edges are a blot"
        axes.set_title(f"class {it.number}, valency {it.valency}{turned}{instead}", fontsize=9)
    for axes in panels[len(drawn) :]:
        axes.set_axis_off()
    figure.suptitle(title or _said(closure), fontsize=10)
    return figure


def _graph_of(closure: Configuration, classes: Tuple[int, ...]) -> Any:
    """Make the networkx graph of the classes, a digraph where they are not their own transposes."""
    networkx = _networkx()
    is_symmetric = {closure.classes[it].transpose for it in classes} == set(classes)
    graph = networkx.Graph() if is_symmetric else networkx.DiGraph()
    graph.add_nodes_from(range(closure.points))
    chosen = set(classes)
    graph.add_edges_from(
        (x, y) for x, row in enumerate(closure.matrix) for y, it in enumerate(row) if it in chosen and x != y
    )
    return graph


def _edges(closure: Configuration, classes: Tuple[int, ...]) -> int:
    """Tell how many edges or arcs a picture of these classes has."""
    chosen = {*classes}
    rows = [closure.classes[it] for it in chosen]
    pairs = sum(it.size for it in rows if it.pair[0] != it.pair[1])
    return pairs // 2 if {it.transpose for it in rows} == chosen else pairs


def _places(closure: Configuration, classes: Tuple[int, ...], by: Optional[Classes], layout: str) -> Place:
    blocks = _sorted_points(closure, by)
    if layout == "circle":
        return _circle(blocks)
    networkx, graph = _networkx(), _graph_of(closure, classes).to_undirected()
    try:
        return networkx.spring_layout(graph, pos=_circle(blocks), seed=1, iterations=300)
    except ImportError as fault:
        raise CohereError(f"this layout needs more than networkx: {fault}") from fault


def _circle(blocks: List[List[int]]) -> Place:
    """Put the points on a circle, clockwise from the top, with a gap after each block."""
    gap = 0.7 if len(blocks) > 1 else 0.0
    count = sum(map(len, blocks)) + gap * len(blocks)
    places, at = {}, 0.0
    for block in blocks:
        for x in block:
            places[x] = (math.sin(2 * math.pi * at / count), math.cos(2 * math.pi * at / count))
            at += 1
        at += gap
    return places


def edge_colours(closure: Configuration, classes: Tuple[int, ...]) -> Dict[int, Tuple[float, float, float]]:
    """Choose the colours of the edges of some classes: those of the matrix, or where it has not one for each, others.

    Of a class and its transpose the first one stands for both where all are edges, and not arcs.
    """
    are_edges = {closure.classes[it].transpose for it in classes} == set(classes)
    drawn = [it for it in dict.fromkeys(classes) if not (are_edges and closure.classes[it].transpose < it)]
    colours = {row.number: group.colour for group in class_groups(closure.classes) for row in group.classes}
    if not _has_classes_alone(class_groups(closure.classes)):
        colours = {row.number: it.colour for it in class_groups(closure.classes, drawn) for row in it.classes}
    return {it: _darkened(colours[it]) for it in drawn}


def _write_key(axes: Axes, closure: Configuration, classes: Tuple[int, ...]) -> None:
    """Write which colour the edges of each class have."""
    from matplotlib.lines import Line2D

    lines, inks = [], edge_colours(closure, classes)
    for it, ink in inks.items():
        row = closure.classes[it]
        both = f" and {row.transpose}" if row.transpose in classes and row.transpose not in inks else ""
        lines.append(Line2D([], [], color=ink, label=f"class {it}{both}, valency {row.valency}"))
    axes.legend(handles=lines, loc="upper left", bbox_to_anchor=(1.0, 1.0), fontsize=_SMALL, frameon=False)


def _paint_graph(
    axes: Axes, closure: Configuration, classes: Tuple[int, ...], places: Place, size: float
) -> None:
    networkx, graph = _networkx(), _graph_of(closure, classes)
    colours, inks = class_colours(closure.classes), edge_colours(closure, classes)
    node = size * (330.0 if closure.points <= _MOST_INSIDE else 1200.0 / closure.points)
    shown = {"ax": axes, "pos": places, "node_size": node}
    for it, ink in inks.items():
        edges = [(x, y) for x, y in graph.edges if closure.matrix[x][y] in (it, closure.classes[it].transpose)]
        if graph.is_directed():
            edges = [(x, y) for x, y in edges if closure.matrix[x][y] == it]
        arrows = {"arrows": True, "arrowsize": 9} if graph.is_directed() else {}
        thin = max(0.25, min(1.4, 150 / len(edges), 80 / closure.points)) if edges else 1.0
        networkx.draw_networkx_edges(
            graph, **shown, edgelist=edges, edge_color=[ink], width=thin, **arrows
        )
    nodes = [colours[closure.matrix[x][x]] for x in graph]
    networkx.draw_networkx_nodes(graph, **shown, node_color=nodes, edgecolors="black", linewidths=0.6)
    for x, (left, up) in places.items():
        if closure.points <= _MOST_INSIDE:
            axes.text(left, up, x, **_CENTRED, fontsize=max(5.0, 8.0 * math.sqrt(size)), color=ink_on(nodes[x]))
        elif closure.points <= _MOST_BESIDE:
            out = 1 + 0.07 / max(math.hypot(left, up), 1e-9)
            axes.text(out * left, out * up, x, **_CENTRED, fontsize=5.5)
    axes.set_axis_off()
    _leave_margins(axes, places)


def _paint_class(axes: Axes, closure: Configuration, number: int) -> None:
    """Paint the matrix of one class."""
    order, _ = _order(closure, None)
    ink, paper = _darkened(class_colours(closure.classes)[number]), (1.0, 1.0, 1.0)
    painted = [[ink if closure.matrix[x][y] == number else paper for y in order] for x in order]
    axes.imshow(painted, interpolation="nearest")
    axes.set(xticks=[], yticks=[])


def _leave_margins(axes: Axes, places: Place) -> None:
    for put, at in ((axes.set_xlim, 0), (axes.set_ylim, 1)):
        least, most = (of(it[at] for it in places.values()) for of in (min, max))
        margin = 0.08 * (most - least) or 1.0
        put(least - margin, most + margin)
    axes.set_aspect("equal")


def _darkened(colour: Any) -> Any:
    """Darken what is too light to be seen as a line on white."""
    red, green, blue = colour
    light = 0.299 * red + 0.587 * green + 0.114 * blue
    return tuple(it * min(1.0, 0.68 / max(light, 1e-9)) for it in (red, green, blue))
