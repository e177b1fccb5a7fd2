"""Three small rasters of a made-up district, the same at each run: a terrain in metres, land cover at two dates, and
areas.

The classes of land cover are 1 water, 2 farmland, 3 forest, 4 settlement, 5 rock.
"""

import numpy

SIZE = 160
CLASSES = ["water", "farmland", "forest", "settlement", "rock"]
DISTRICTS = 6


def smooth(numbers, cells):
    """Noise from 0 to 1 that varies over some SIZE / cells cells, by linear interpolation of a coarse grid."""
    coarse = numbers.random((cells + 1, cells + 1))
    at = numpy.linspace(0, cells, SIZE)
    rows = numpy.array([numpy.interp(at, range(cells + 1), line) for line in coarse])
    return numpy.array([numpy.interp(at, range(cells + 1), line) for line in rows.T]).T


def terrain():
    """Heights in metres."""
    numbers = numpy.random.default_rng(2)
    layers = [(4, 900), (9, 350), (20, 120), (50, 30)]
    return sum(height * smooth(numbers, cells) for cells, height in layers).astype(numpy.int16)


def cover(heights):
    """Land cover at the first date: by height, with settlements in the plain."""
    numbers = numpy.random.default_rng(3)
    woods, towns = smooth(numbers, 12), smooth(numbers, 16)
    classes = numpy.where(woods > 0.5, 3, 2)
    classes[(towns > 0.72) & (heights < 750)] = 4
    classes[heights > 980] = 5
    classes[heights < 430] = 1
    return classes.astype(numpy.uint8)


def later(classes):
    """Land cover at the second date: settlements have grown into farmland, and some farmland is forest now."""
    numbers = numpy.random.default_rng(4)
    near = numpy.zeros(classes.shape, bool)
    for axis in (0, 1):
        for shift in range(-3, 4):
            near |= numpy.roll(classes == 4, shift, axis)
    left = smooth(numbers, 10) > 0.68
    grown = classes.copy()
    grown[(classes == 2) & left] = 3
    grown[(classes == 2) & near] = 4
    return grown


def districts():
    """The number of the nearest of some seats, from 1 on."""
    numbers = numpy.random.default_rng(5)
    seats = numbers.random((DISTRICTS, 2)) * SIZE
    y, x = numpy.mgrid[:SIZE, :SIZE]
    away = [(y - seat[0]) ** 2 + (x - seat[1]) ** 2 for seat in seats]
    return (numpy.argmin(away, axis=0) + 1).astype(numpy.uint8)
