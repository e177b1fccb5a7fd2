"""What a coverage does not keep of a raster, as a file beside it has it: place, reference system, and what its bands
are like."""

from osgeo import gdal


def kept(raster, bands, coverage):
    """What is kept of a raster, and the names of what a coverage drops of it."""
    found = {
        "coverage": coverage,
        "transform": raster.GetGeoTransform(can_return_null=True),
        "wkt": raster.GetProjection() or None,
        "metadata": raster.GetMetadata(),
        "bands": [band_of(band) for band in bands],
    }
    dropped = {
        "place": found["transform"],
        "reference system": found["wkt"],
        "no-data": any(it["nodata"] is not None for it in found["bands"]),
        "scale and offset": any(it["scale"] is not None or it["offset"] is not None for it in found["bands"]),
        "colour table": any(it["colours"] for it in found["bands"]),
        "units": any(it["unit"] for it in found["bands"]),
        "descriptions": any(it["description"] for it in found["bands"]),
        "metadata": any(set(it["metadata"]) - {"AREA_OR_POINT"} for it in [found, *found["bands"]]),
    }
    return found, [name for name, is_there in dropped.items() if is_there]


def otherwise_placed(raster):
    """By what a raster without a transform is placed; it is not kept. None where there is a transform, or nothing."""
    ways = {
        "control points": raster.GetGCPCount(),
        "RPCs": raster.GetMetadata("RPC"),
        "arrays of coordinates": raster.GetMetadata("GEOLOCATION"),
    }
    found = [way for way, is_there in ways.items() if is_there]
    return found[0] if found and not raster.GetGeoTransform(can_return_null=True) else None


def band_of(band):
    """What a band is like, and how it is stored."""
    of_gdal, table = band.band, band.band.GetColorTable()
    return {
        "field": band.field,
        "is_masked": bool(band.empty),
        "stored_times": band.scale if band.is_float else None,
        "type": gdal.GetDataTypeName(of_gdal.DataType),
        "nodata": of_gdal.GetNoDataValue(),
        "scale": of_gdal.GetScale(),
        "offset": of_gdal.GetOffset(),
        "unit": of_gdal.GetUnitType(),
        "description": of_gdal.GetDescription(),
        "interpretation": of_gdal.GetColorInterpretation(),
        "metadata": of_gdal.GetMetadata(),
        "colours": [list(table.GetColorEntry(k)) for k in range(table.GetCount())] if table else None,
    }


def place(raster, kept, at, step):
    """Gives a raster the place of its first cell, (y, x) of the coverage, where each step-th cell was asked."""
    if kept["wkt"]:
        raster.SetProjection(kept["wkt"])
    if kept["transform"]:
        left, across, skew, top, lean, down = kept["transform"]
        y, x = at
        raster.SetGeoTransform(
            [
                left + x * across + y * skew,
                across * step,
                skew * step,
                top + x * lean + y * down,
                lean * step,
                down * step,
            ]
        )


def dress(raster, kept):
    """Gives a raster whose bands are those of the coverage what these are like."""
    raster.SetMetadata(kept["metadata"])
    for number, it in enumerate(kept["bands"], 1):
        band = raster.GetRasterBand(number)
        if it["nodata"] is not None:
            band.SetNoDataValue(it["nodata"])
        for value, give in [
            (it["scale"], band.SetScale),
            (it["offset"], band.SetOffset),
            (it["unit"], band.SetUnitType),
            (it["description"], band.SetDescription),
            (it["metadata"], band.SetMetadata),
            (it["interpretation"], band.SetColorInterpretation),
        ]:
            if value not in (None, "", {}):
                give(value)
        if it["colours"]:
            table = gdal.ColorTable()
            for k, colour in enumerate(it["colours"]):
                table.SetColorEntry(k, tuple(colour))
            band.SetColorTable(table)


def fields_of(kept):
    """The fields of the coverage, masks last."""
    bands = kept["bands"]
    return [it["field"] for it in bands] + [f"{it['field']}_ok" for it in bands if it["is_masked"]]


def restored(answer, kept):
    """The bands as they came, of an answer with all fields of the coverage."""
    bands = kept["bands"]
    masks = [it["field"] for it in bands if it["is_masked"]]
    found = []
    for it, cells in zip(bands, answer):
        made = cells / it["stored_times"] if it["stored_times"] else cells
        if it["is_masked"]:
            holds = answer[len(bands) + masks.index(it["field"])]
            empty = it["nodata"] if it["nodata"] is not None else float("nan") if it["stored_times"] else 0
            made = made.copy()
            made[~holds.astype(bool)] = empty
        found.append(made)
    return found
