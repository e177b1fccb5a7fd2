"""Coverages of rasterd as datasets of xarray, from one server or in parts over many.

    xarray.open_dataset("rasterd://127.0.0.1:8080/hill", engine="rasterd", chunks={})
    xarray.open_dataset("rasterd://a:8001,b:8001,c:8001/terrain", engine="rasterd", chunks={}, geo="terrain.json")
    rasterd_xarray.to_rasterd(dataset, "rasterd://a:8001,b:8001,c:8001/terrain")
    rasterd_xarray.reduce("rasterd://a:8001,b:8001,c:8001/terrain", "mean", "v")

A variable for each field, which is asked for as it is needed. With `chunks={}` they are arrays of dask whose chunks are
whole tiles, lie in one part each, and have no more cells than one answer may. Coordinates are the server's, or those of
the file that `rasterd-load --geo` writes. `rasterd_parts` says how parts and copies are found, and what happens where a
server is down.

It needs Debian's packages python3-xarray, python3-dask and python3-numpy. With this folder in PYTHONPATH xarray finds
the engine by itself.
"""

import json
import urllib.parse

import dask
import dask.array
import numpy
import rasterd_parts
import xarray

# The field type of each type of numpy that fits one.
FIELDS = {
    "bool": "bool",
    "uint8": "u8",
    "int8": "i16",
    "int16": "i16",
    "uint16": "i32",
    "int32": "i32",
    "uint32": "i64",
    "int64": "i64",
}


def places(url):
    """The servers and the coverage of `rasterd://host:port,host:port/NAME`."""
    parts = urllib.parse.urlsplit(url)
    if parts.scheme != "rasterd" or not parts.netloc or not parts.path.strip("/"):
        raise ValueError(f"{url} is not rasterd://host:port,host:port/NAME")
    return parts.netloc.split(","), parts.path.strip("/")


def raster_of(url, patience=rasterd_parts.PATIENCE):
    return rasterd_parts.find(*places(url), patience)


class Field(xarray.backends.BackendArray):
    """A field as xarray wants it: any window of it, when it is needed."""

    def __init__(self, raster, field):
        self.raster, self.field = raster, field
        self.shape = tuple(hi - lo + 1 for lo, hi in raster.domain.values())
        self.dtype = numpy.dtype(rasterd_parts.KINDS[raster.fields[field]])

    def __getitem__(self, key):
        indexing = xarray.core.indexing
        if isinstance(key, indexing.VectorizedIndexer):
            support = indexing.IndexingSupport.OUTER
            return indexing.explicit_indexing_adapter(key, self.shape, support, self.window)
        return self.window(key.tuple)

    def window(self, key):
        """The cells at some positions of each axis: the box around them is asked for, and taken apart here."""
        places = [numpy.arange(size)[it] for it, size in zip(key, self.shape)]
        if not all(it.size for it in places):
            return numpy.empty([size for it in places for size in it.shape], self.dtype)
        firsts = [it.min() for it in places]
        bounds = self.raster.domain.items()
        box = {
            axis: (lo + int(first), lo + int(it.max())) for (axis, (lo, _)), first, it in zip(bounds, firsts, places)
        }
        cells = self.raster.cells(self.field, box)
        for axis in reversed(range(len(places))):
            cells = cells.take(places[axis] - firsts[axis], axis)
        return cells


def chunks_of(raster):
    return {axis: tuple(hi - lo + 1 for lo, hi in it) for axis, it in raster.cuts().items()}


def coordinates(raster, geo):
    """The coordinates of the axes: the server's, or the middles of cells by the file of a raster's place, and what the
    reference system is as rioxarray and GDAL read it."""
    numbers = {axis: numpy.arange(lo, hi + 1) for axis, (lo, hi) in raster.domain.items()}
    if not geo:
        return numbers
    with open(geo, encoding="utf-8") as file:
        kept = json.load(file)
    transform, wkt = kept["transform"], kept["wkt"]
    if transform and len(numbers) >= 2:
        left, across, skew, top, lean, down = transform
        if skew or lean:
            raise ValueError(f"{geo} has a rotated raster, whose rows and columns have no coordinates of their own")
        y, x = list(numbers)[-2:]
        numbers[y], numbers[x] = top + (numbers[y] + 0.5) * down, left + (numbers[x] + 0.5) * across
    attributes = {"crs_wkt": wkt or "", "GeoTransform": " ".join(map(str, transform or []))}
    return numbers | {"spatial_ref": xarray.Variable((), 0, attributes)}


class Backend(xarray.backends.BackendEntrypoint):
    """The engine `rasterd`."""

    description = "Coverages of a rasterd server, or of several"
    open_dataset_parameters = ["filename_or_obj", "drop_variables", "geo", "patience"]

    def open_dataset(self, filename_or_obj, *, drop_variables=None, geo=None, patience=rasterd_parts.PATIENCE):
        raster = raster_of(filename_or_obj, patience)
        encoding, attributes = {"preferred_chunks": chunks_of(raster)}, {"grid_mapping": "spatial_ref"} if geo else {}
        variables = {}
        dropped = [drop_variables] if isinstance(drop_variables, str) else drop_variables or ()
        for field in raster.fields:
            if field not in dropped:
                lazy = xarray.core.indexing.LazilyIndexedArray(Field(raster, field))
                variables[field] = xarray.Variable(list(raster.domain), lazy, attributes, encoding)
        return xarray.Dataset(variables, coordinates(raster, geo), {"coverage": raster.name})

    def guess_can_open(self, filename_or_obj):
        return str(filename_or_obj).startswith("rasterd://")


def reduce(url, fold, field, patience=rasterd_parts.PATIENCE):
    """The `sum`, `mean`, `min` or `max` of a field, folded where the cells are."""
    if fold not in ("sum", "mean", "min", "max"):
        raise ValueError(f"{fold} is none of sum, mean, min and max")
    return getattr(raster_of(url, patience), fold)(field)


# Writing


def is_counted(coordinate):
    """Whether coordinates are whole numbers that follow one another, as a coverage has them."""
    values = numpy.asarray(coordinate)
    return values.dtype.kind in "iu" and bool((numpy.diff(values.astype("int64")) == 1).all())


def bounds(coordinate, size):
    """The bounds of an axis: those of its coordinates where a coverage has such, else from 0 on."""
    first = int(coordinate[0]) if coordinate is not None and is_counted(coordinate) else 0
    return first, first + size - 1


def refuse_marks(name, variable):
    """Refuses a variable of whose numbers some stand for no data, or all are scaled: a coverage has the numbers
    alone."""
    # what was decoded has its mark in the encoding, and its scale no more
    known = variable.encoding | variable.attrs
    marks = [it for it in ("_FillValue", "missing_value") if known.get(it) is not None]
    if marks:
        raise ValueError(
            f"cells of {name} may stand for no data, as its {' and '.join(marks)} says, and a coverage has no such mark: put a"
            " Boolean variable beside it that says which cells hold data, and take this out of its attrs and encoding"
        )
    # what rioxarray says of numbers that are not scaled
    plain = {"scale_factor": 1, "add_offset": 0}
    scales = [it for it in plain if numpy.any(variable.attrs.get(it, plain[it]) != plain[it])]
    if scales:
        raise ValueError(
            f"the numbers of {name} are scaled, as its {' and '.join(scales)} says, and a coverage keeps the numbers alone:"
            " scale and round them, or take this out of its attrs"
        )


def field_types(dataset):
    """The field type of each variable."""
    kinds = {}
    for name, it in dataset.data_vars.items():
        if it.dtype.name not in FIELDS:
            way = (
                "scale and round it first"
                if it.dtype.kind == "f"
                else "make whole numbers of it, as by .astype('int64')"
            )
            raise TypeError(f"no field type holds {name}, which is of {it.dtype.name}: {way}")
        if it.dims != next(iter(dataset.data_vars.values())).dims:
            raise ValueError(f"{name} has the axes {it.dims}, and a coverage has the same for all its fields")
        refuse_marks(name, it)
        kinds[name] = FIELDS[it.dtype.name]
    return kinds


def to_rasterd(data, url, patience=rasterd_parts.PATIENCE):
    """Makes a coverage of a dataset, or of an array, cut over the servers of the URL; gives the raster. A warning names
    the coordinates that a coverage does not keep. Where writing fails its parts are deleted, and a note on the
    exception says which could not be, and which may be there."""
    if isinstance(data, xarray.DataArray):
        # an array of dask lends its array a name that no field may have
        data = data.to_dataset(name=data.name if str(data.name).isidentifier() and data.name else "v")
    if not isinstance(data, xarray.Dataset) or not data.data_vars:
        raise TypeError("what is written is a dataset of xarray with variables, or a data array")
    servers, name = places(url)
    fields = field_types(data)
    first = next(iter(data.data_vars.values()))
    if not 1 <= len(first.dims) <= len(rasterd_parts.TILE) or not first.size:
        raise ValueError(
            f"a coverage has 1 to {len(rasterd_parts.TILE)} axes, none of which is empty, and not {dict(first.sizes)}"
        )
    domain = {axis: bounds(first.coords.get(axis), size) for axis, size in zip(first.dims, first.shape)}
    lost = [str(it) for it in data.coords if it not in domain or not is_counted(data.coords[it])]
    if lost:
        rasterd_parts.tell(f"{name} does not keep the coordinates {', '.join(lost)}; an axis without any begins at 0")
    raster = rasterd_parts.make(servers, name, domain, fields, patience)
    with rasterd_parts.undone(raster.parts):
        dask.compute(*(task for field in fields for task in writes(raster, field, data[field].data)))
    return raster


def writes(raster, field, cells):
    """What writes each box of a field, of an array of numpy or of dask."""
    for part in raster.parts:
        for box in rasterd_parts.slabs(part, rasterd_parts.MOST_CELLS):
            place = tuple(
                slice(lo - raster.domain[it][0], hi - raster.domain[it][0] + 1) for it, (lo, hi) in box.items()
            )
            yield dask.delayed(rasterd_parts.write, pure=False)(part, field, box, cells[place], raster.patience)
