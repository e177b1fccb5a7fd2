"""Questions whose plain query counts too much work (54) or too many cells (55), in forms that pass: what is the same
for all cells is asked first, tables go over zones in place of cells, and the rest goes in parts.

    session = rasterd.Session(port=8080)
    rasterd_algebra.zonal(session, "dem", "district", "mean")       # {1: 412, 2: 388, ..}
    rasterd_algebra.zonal_picture(session, "dem", "district", "mean")
    rasterd_algebra.stretch(session, "image.red")
    rasterd_algebra.histogram(session, "image.red", 64)
    rasterd_algebra.cells(session, "dem", lambda c: f"{c} - 400")

A layer is a coverage with one field, or a field as `image.red`. Where many cells are asked the query goes as a job, so
that other clients are served meanwhile. Arrays are numpy's; `zonal` and `histogram` need none.
"""

import rasterd

# The most cells of an answer, and from how many cell comparisons on a query goes as a job.
MOST_CELLS, MANY = 2**20, 2**24


def expression(variable, layer):
    """A layer's entry in the `for` list, and the layer under that variable."""
    coverage, dot, field = layer.partition(".")
    return f"{variable} in ({coverage})", variable + dot + field


def box_of(session, layer):
    return session.describe(layer.partition(".")[0])[0]


def range_of(session, layer):
    """Two numbers between which the cells of a layer lie, whatever is written meanwhile: the ends of its type, but of
    i64, whose differences leave 64 bits, the least and the greatest cell there are now."""
    coverage, _, field = layer.partition(".")
    fields = session.describe(coverage)[1]
    kind = fields.get(field) or next(iter(fields.values()))
    return rasterd.RANGES[kind] if kind in ("u8", "i16", "i32") else ends(session, layer)


def asked(session, query, cells):
    """The rows of the one item of an answer, each a list of tuples of fields."""
    csv = session.run(query, progress=None) if cells > MANY else session.query(query)
    return rasterd.items_of(csv)[0]


def ends(session, layer):
    """The least and the greatest cell of a layer."""
    bind, c = expression("c", layer)
    return rasterd.items_of(session.query(f"for {bind} return {{least: min({c}); greatest: max({c})}}"))[0][0][0]


def table(session, points, bounds, query):
    """The fields at each place from a lowest to a highest one, in parts where all at once is too much. `query` gives
    the text for such bounds."""
    low, high = bounds
    try:
        return asked(session, query(low, high), points * (high - low + 1))[0]
    except rasterd.Refused as refusal:
        if refusal.number not in (54, 55) or low == high:
            raise
    half = (low + high) // 2
    return table(session, points, (low, half), query) + table(session, points, (half + 1, high), query)


def zonal(session, layer, zones, operation="sum"):
    """A mapping from each zone, the cells of `zones`, to the sum, count, mean, max or min of a layer's cells there. A
    mean is rounded down. Zones are asked from the least to the greatest: number them without large gaps.

    Which zones there are is one request, and what is in them another, or several. Where the coverages are written
    between these, zones that are new may be missing, and the others are as each request finds them. A `max` or `min` of
    i64 may then be a number that never was there, as the least and the greatest cell are asked for first."""
    (bind, c), (of_zones, z) = expression("c", layer), expression("z", zones)
    if operation not in ("sum", "mean", "count", "max", "min"):
        raise ValueError(f"`{operation}` is none of sum, mean, count, max, min")
    lowest, highest = range_of(session, layer) if operation in ("max", "min") else (0, 0)
    values = {
        "sum": f"add({c} * ({z} = $k))",
        "mean": f"add({c} * ({z} = $k))",
        "count": f"count({z} = $k)",
        # no zone is without points: those outside of it count as the least, or as the greatest
        "max": f"max(({c} - ({lowest})) * ({z} = $k)) + ({lowest})",
        "min": f"{highest} - max(({highest} - {c}) * ({z} = $k))",
    }

    def query(low, high):
        over = f"coverage t over $k zone({low}:{high}) values"
        return (
            f"for {bind}, {of_zones} return encode({{n: {over} count({z} = $k); v: {over} {values[operation]}}}, csv)"
        )

    low, high = ends(session, zones)
    found = table(session, rasterd.points_of(box_of(session, layer)), (low, high), query)
    return {
        zone: value // count if operation == "mean" else value
        for zone, (count, value) in enumerate(found, low)
        if count
    }


def zonal_picture(session, layer, zones, operation="sum"):
    """The array that has at each cell the value of its zone: the table first, then its values looked up."""
    found = zonal(session, layer, zones, operation)
    low, high = min(found), max(found)
    listed = "; ".join(str(found.get(zone, 0)) for zone in range(low, high + 1))
    if len(listed) > 60_000:
        raise ValueError(f"{high - low + 1} zones are too many to be looked up in one query")
    values = f"(coverage t over $k zone({low}:{high}) value list <{listed}>)"
    box = box_of(session, zones)

    def picture(part):
        bind, z = expression("z", zones)
        over = ", ".join(f"$p{k} {axis}({lo}:{hi})" for k, (axis, (lo, hi)) in enumerate(part.items()))
        at = ", ".join(f"{axis}($p{k})" for k, axis in enumerate(part))
        return f"for {bind} return encode(coverage p over {over} values {values}[zone({z}[{at}])], csv)"

    return in_parts(session, box, picture)


def cells(session, layer, of=lambda c: c):
    """The array of an expression of each cell of a layer, whose text `of` gives."""
    bind, c = expression("c", layer)

    def query(part):
        return f"for {bind} return encode({of(f'{c}[{rasterd.interval_list(part)}]')}, csv)"

    return in_parts(session, box_of(session, layer), query)


def in_parts(session, box, query):
    """The array of a box, whose parts `query` gives the texts of."""
    import numpy

    found = [session.array(query(part), -1) for part in rasterd.parts_of(box, MOST_CELLS)]
    return numpy.concatenate(found).reshape([hi - lo + 1 for lo, hi in box.values()])


def stretch(session, layer):
    """The array of a layer's cells from 0, the least, to 255, the greatest. These two are asked for first: what is
    written before all cells have come is stretched by them too, and may lie outside."""
    low, high = ends(session, layer)
    return cells(session, layer, lambda c: f"({c} - ({low})) * 255 / {max(1, high - low)}")


def histogram(session, layer, bins=256):
    """How many cells of a layer lie in each of at most so many intervals of whole numbers, as wide as each other, from
    the least cell to the greatest: a mapping from the lowest number of each interval. These two are asked for first:
    cells past them that are written meanwhile count in the first or in the last interval."""
    bind, c = expression("c", layer)
    low, high = ends(session, layer)
    width = -(-(high - low + 1) // bins)
    last = (high - low) // width

    def query(first, to):
        over = f"coverage h over $k bin({first}:{to}) values"
        return f"for {bind} return encode({over} count({c} <= {low + width - 1} + $k * {width}), csv)"

    points = rasterd.points_of(box_of(session, layer))
    # the greatest interval ends at the greatest cell, which may leave 64 bits past it
    up_to = [it[0] for it in table(session, points, (0, last - 1), query)] + [points] if last else [points]
    return {low + k * width: count - (up_to[k - 1] if k else 0) for k, count in enumerate(up_to)}
