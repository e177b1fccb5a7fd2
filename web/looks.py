"""What a page looks like: pictures of it to keep, and scripts that find what cannot be read or reached."""

import contextlib
import os

import numpy
from osgeo import gdal

PICTURES = f"{os.path.dirname(os.path.abspath(__file__))}/pictures"

# The texts whose contrast with what is behind them is below 4.5.
LOW_CONTRAST = """
const parts = text => text.match(/[\\d.]+/g).map(Number);
const paints = it => { const colour = parts(getComputedStyle(it).backgroundColor); return colour.length < 4 || colour[3] > 0; };
const behind = it => !it ? [255, 255, 255] : paints(it) ? parts(getComputedStyle(it).backgroundColor) : behind(it.parentElement);
const linear = v => (v /= 255) <= 0.03928 ? v / 12.92 : ((v + 0.055) / 1.055) ** 2.4;
const light = ([red, green, blue]) => 0.2126 * linear(red) + 0.7152 * linear(green) + 0.0722 * linear(blue);
const contrast = it => {
  const [more, less] = [light(parts(getComputedStyle(it).color)), light(behind(it))].sort((a, b) => b - a);
  return (more + 0.05) / (less + 0.05);
};
const hasText = it => [...it.childNodes].some(node => node.nodeType === 3 && node.textContent.trim());
return [...document.querySelectorAll('body *')].filter(it => it.checkVisibility() && !it.disabled && hasText(it))
  .filter(it => contrast(it) < 4.5).map(it => [it.tagName, it.id, it.textContent.slice(0, 20), contrast(it)]);
"""

# The controls that reach out of the window.
CUT_OFF = """
const isOut = box => box.right > innerWidth + 1 || box.left < -1;
return [...document.querySelectorAll('button, select, input, textarea, canvas, h1, h2')]
  .filter(it => it.checkVisibility() && !it.closest('#answer') && isOut(it.getBoundingClientRect()))
  .map(it => it.id || it.tagName);
"""


def keep(browser, name, width, height, scale=1):
    """A screenshot in the repository, of less than 100 KB: in 256 colours at most."""
    os.makedirs(PICTURES, exist_ok=True)
    path = f"{PICTURES}/{name}.png"
    browser.shot(path, width, height, scale)
    dots = gdal.Open(path).ReadAsArray()[:3].astype(int)
    joined = dots[0] << 16 | dots[1] << 8 | dots[2]
    found, places, counts = numpy.unique(joined, return_inverse=True, return_counts=True)
    parts = numpy.stack([found >> 16, found >> 8 & 255, found & 255], 1)
    palette = parts[numpy.argsort(-counts)[:256]]
    nearest = ((parts[:, None] - palette[None]) ** 2).sum(2).argmin(1)
    write_png(path, nearest[places].reshape(joined.shape), palette)
    if os.path.getsize(path) >= 100_000:
        raise AssertionError(f"{path} is of 100 KB or more")


def write_png(path, dots, palette):
    made, table = gdal.GetDriverByName("MEM").Create("", *dots.shape[::-1], 1, gdal.GDT_Byte), gdal.ColorTable()
    for number, colour in enumerate(palette.tolist()):
        table.SetColorEntry(number, tuple(colour))
    made.GetRasterBand(1).SetRasterColorTable(table)
    made.GetRasterBand(1).WriteArray(dots.astype(numpy.uint8))
    gdal.GetDriverByName("PNG").CreateCopy(path, made, options=["ZLEVEL=9"])
    with contextlib.suppress(OSError):
        os.remove(f"{path}.aux.xml")
