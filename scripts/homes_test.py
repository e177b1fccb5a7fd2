#!/usr/bin/env python3
"""Tests the check of the documents and the finder of second homes. It has to pass on a copy of this tree; then a fact
of each kind is said once more there, or otherwise in a document, and each has to be told, and the check has to fail.

    scripts/homes_test.py
"""

import os
import re
import shutil
import subprocess
import sys
import tempfile

sys.dont_write_bytecode = True
TOP = os.path.dirname(os.path.dirname(os.path.abspath(__file__)))

# A name that no file has, this one neither.
NOWHERE = "is" + "_" + "low"
# What is written behind the end of a file, and what has to be told of it.
NUMBER, NAME, STATUS = "the number of a refusal", "the name of a refusal", "the status of a refusal"
KEYWORD, TYPE, KIND = "a keyword", "the name of a field type", "the kind of a field type"
LIMIT, EDGE, DISTANCE = "a limit", "the edge of a tile", "the distance of two coordinates"
WANT = "an error that is told as want of memory"
LINES = [
    ("wcps_types/src/refusal.rt", "            TypeRefusal::NoSuchField => 42,", NUMBER),
    ("tile_exec/src/exec.rt", "    Err(refused(70))", NUMBER),
    ("rasterd/src/main.rt", "const BAD_VALUE: u16 = 14;", NUMBER),
    ("coverage_server/specs/Machine.antt", "    (Unless (AreFields fields) 23", NUMBER),
    ("http_front/specs/Head.antt", "framing_of Coding.Chunked length = Err 4", NUMBER),
    ("kvp_front/specs/Requests.antt", "number_of e = if is_key e then 12 else 13", NUMBER),
    ("job_desk/src/desk.rt", '    text.push_str("NoSuchJob")?;', NAME),
    ("http_front/src/reply.rt", "        3 | 20 | 70 => 404,", STATUS),
    ("http_front/specs/Replies.antt", "status_of code = if code < 20 then 400 else 503", STATUS),
    ("wcps_parse/src/query.rt", '    b"condense",', KEYWORD),
    ("wcps_print/specs/Printing.antt", 'condense_word = codes "condense"', KEYWORD),
    ("catalogue/src/reading.rt", '        "i16" => FieldType::I16,', TYPE),
    ("kvp_front/specs/Spelling.antt", 'name_of kind.I16 = codes "i16"', TYPE),
    ("raster_store/src/writing.rt", "        FieldType::Bool => true,", KIND),
    ("metadata/src/reading.rt", "    requires { count area.now ≤ 2 ^ 24 }", LIMIT),
    ("csv_out/src/cells.rt", "const MOST_POINTS: u64 = 16_777_216;", LIMIT),
    ("plan_rewrite/specs/Lowering.antt", "max_work = 4294967296", "max_work is defined 2 times"),
    ("wcps_print/specs/Printed.antt", "max_points = 16777216", "max_points is defined 2 times"),
    ("coverage_server/specs/Machine.antt", "    (Unless (length old < 1024) TooManyCoverages", LIMIT),
    ("coverage_server/specs/Asking.antt", "AreFew text = length text ≤ 65536", LIMIT),
    ("job_desk/src/desk.rt", "    requires few { length jobs.now ≤ 64 }", LIMIT),
    ("job_desk/src/step.rt", "        if self.jobs.len() >= 64 {", LIMIT),
    ("job_desk/specs/Steps.antt", "AreFull jobs = 64 ≤ length jobs", LIMIT),
    ("wcps_types/src/boxes.rt", "    requires few { length axes.now ≤ 6 }", LIMIT),
    ("kvp_front/specs/Contents.antt", "AreSome fields = (1 ≤ length fields) × (length fields ≤ 16)", LIMIT),
    ("wcps_types/specs/Boxes.antt", "are_few axes = nat_le (length axes) 6", LIMIT),
    ("kvp_front/specs/Jobs.antt", "is_long units = nat_lt 1000 units", LIMIT),
    ("map_templates/specs/Laws.antt", "IsHigh a = pos 2147483647 ≤ℤ a.hi", LIMIT),
    ("map_templates/specs/Laws.antt", "IsLow a = a.lo ≤ℤ negsuc 2147483647", LIMIT),
    ("tile_columns/specs/Windows.antt", "HasManyCells w = 16384 < halo_cells w", LIMIT),
    ("csv_out/src/cells.rt", "    requires few { length cells.now ≤ 128 }", LIMIT),
    ("wcps_types/src/boxes.rt", "    if 16_777_216 < points {", LIMIT),
    ("kvp_front/src/jobs.rt", "    if units > 1_000 {", LIMIT),
    ("tile_columns/src/part.rt", "    match axes {\n        2 => 64,\n        _ => 4,\n    }", EDGE),
    ("raster_store/src/sizes.rt", "        1 => 4096,", EDGE),
    ("catalogue/src/reading.rt", "        4 => 8,", EDGE),
    ("tile_exec/src/task.rt", "    let side = if axes.len() == 3 { 16 } else { 8 };", EDGE),
    ("tile_store/src/reserve.rt", "const SIDES: [u64; 5] = [4096, 64, 16, 8, 4];", EDGE),
    ("tile_store/specs/Stored.antt", "side_of n = if n == 1 then max_tile else (if n == 2 then 64 else 16)", EDGE),
    ("tile_store/specs/Room.antt", "side_at n = if n == 3 then 16 else 8", EDGE),
    ("wcps_mean/src/lookup.rt", "    let size = (axis.hi as i64 - axis.lo as i64) as u64 + 1;", DISTANCE),
    ("raster_store/src/reading.rt", "    let above = (x as i64 - lo as i64) as usize;", DISTANCE),
    ("csv_out/src/csv.rt", "    let line = axis.hi - axis.lo + 1;", DISTANCE),
    ("csv_out/specs/Csv.antt", "width_of a = nat_abs (a.hi -ℤ a.lo) + 1", DISTANCE),
    ("tile_store/src/fault.rt", "            ReadError::Damaged => Fault::NoMemory,", WANT),
    ("coverage_server/src/coverages.rt", "        Err(Fault::NoRoom) => return Err(AllocError),", WANT),
    # what no crate has yet, in two
    (
        "page_pool/src/page.rt",
        "fn known(blocks: &[u32]) -> u64 {\n    blocks.iter().map(|block| BLOCK_BYTES as u64 * *block as u64).sum()\n}",
        "known: a function, as sum in disk_face/src/lib.rt",
    ),
    (
        "disk_face/src/lib.rt",
        "fn sum(list: &[u32]) -> u64 {\n    list.iter().map(|it| BLOCK_BYTES as u64 * *it as u64).sum()\n}",
        "sum: a function, as known in page_pool/src/page.rt",
    ),
    (
        "stream_face/specs/Views.antt",
        "\nabbrev pub both : ℕ → ℕ → ℕ\nboth n m = if n == m then n + m else n * m + n * m + n * m",
        "both: a definition, as of_two in tile_index/specs/Index.antt",
    ),
    (
        "tile_index/specs/Index.antt",
        "\nunfoldable of_two : ℕ → ℕ → ℕ\nof_two a b = if a == b then a + b else a * b + a * b + a * b",
        "of_two: a definition, as both in stream_face/specs/Views.antt",
    ),
]
# Functions, definitions and enums of one crate that are written once more in another one: where from, what, where to,
# and its names there behind those of the home.
COPIES = [
    ("arr_core/src/signature.rt", "fn copy", "catalogue/src/writing.rt", "self signature alloc a"),
    ("arr_core/src/signature.rt", "fn copy", "wcps_types/src/source.rt", "Signature Head name id fields rows"),
    ("arr_core/src/axes.rt", "fn size", "tile_kernel/src/windows.rt", "size size_of"),
    ("arr_core/src/axes.rt", "fn count_points", "tile_store/src/numbers.rt", "count_points product axis a"),
    ("arr_core/src/axes.rt", "fn rank_of", "wcps_mean/src/lookup.rt", "rank_of place_of axes box rest more"),
    ("arr_core/specs/Domains.antt", "rank_of", "tile_index/specs/Entries.antt", "rank_of place_in axes box"),
    ("arr_core/specs/Domains.antt", "size_of", "metadata/specs/Parts.antt", "size_of width a axis"),
    (
        "arr_core/src/axes.rt",
        "fn coordinate",
        "tile_columns/src/tiling.rt",
        "coordinate corner steps above lo least hi greatest",
    ),
    (
        "arr_core/src/axes.rt",
        "fn push_coordinates",
        "wcps_mean/src/lookup.rt",
        "push_coordinates put_point axes box place rank",
    ),
    ("arr_core/src/tile.rt", "fn tile_steps", "tile_columns/src/locate.rt", "tile_steps part_of last end place step"),
    ("arr_core/src/runs.rt", "fn widen", "tile_columns/src/numbers.rt", "widen copy_numbers cells numbers narrow zs"),
    ("wcps_mean/src/cell.rt", "fn coordinate_in", "plan_ir/src/eval.rt", "coordinate_in tested position x"),
    (
        "wcps_mean/specs/Cells.antt",
        "coordinate_in",
        "plan_ir/specs/Planned.antt",
        "coordinate_in tested lo least hi most",
    ),
    ("arr_core/specs/Domains.antt", "axis_place", "wcps_types/specs/Names.antt", "axis_place place_on a axis"),
    ("arr_core/specs/Fields.antt", "IsField", "map_templates/specs/Queries.antt", "IsField HasName f field"),
    ("arr_core/specs/Tiles.antt", "tile_box", "tile_store/specs/Stored.antt", "tile_box box_of axes domain n tile"),
    ("arr_core/specs/Meeting.antt", "tile_number", "plan_ir/specs/Units.antt", "tile_number number_at axes domain"),
    ("tile_kernel/src/first_fault.rt", "fn least", "tile_exec/src/found.rt", "least earlier self a other b"),
    ("tile_kernel/src/first_fault.rt", "fn least", "tile_exec/src/row.rt", "FirstFault First fault told place at"),
    ("plan_rewrite/src/inlining/body.rt", "fn inline_body", "plan_ir/src/body.rt", "inline_body rebuilt e tree"),
    ("plan_rewrite/specs/Everywhere.antt", "InBody", "job_desk/specs/Places.antt", "InBody Holds r rule"),
    ("file_bytes/src/error.rt", "enum ReadError", "page_pool/src/page.rt", "ReadError PageError"),
    ("block_file/src/fault.rt", "enum TakeFault", "file_bytes/src/form.rt", "TakeFault FormFault"),
    ("wcps_mean/src/product.rt", "fn capped", "csv_out/src/cells.rt", "capped limited m a n b"),
    ("wcps_mean/src/lookup.rt", "fn place_at", "tile_columns/src/ground.rt", "place_at coverage_at places list"),
    ("wcps_mean/src/cell.rt", "fn weight", "tile_kernel/src/reduce.rt", "weight weight_of x z"),
    ("wcps_mean/specs/Reading.antt", "CellsOf", "tile_exec/specs/Tasks.antt", "CellsOf Given"),
]
# What is written in place of something, and what the check has to say of it.
CHANGES = [
    (
        "docs/REFUSALS.md",
        "| 27 TooManyCoverages | 503 |",
        "| 27 TooManyCoverages | 400 |",
        "docs/REFUSALS.md: the status of 27",
    ),
    ("oracle/machine.py", "70 NoSuchJob", "70 NoJob", "oracle/machine.py: the name of 70"),
    ("oracle/machine.py", '    "u8": (0, 255),\n', "", "oracle/machine.py lacks the type u8"),
    ("oracle/language.py", " imagecrsdomain", "", "oracle/language.py lacks the keyword imagecrsdomain"),
    (
        "clients/python/rasterd-ask",
        "max imageCrsDomain",
        "max",
        "clients/python/rasterd-ask lacks the keyword imagecrsdomain",
    ),
    ("docs/LANGUAGE.md", "condense using and", "condense and", "docs/LANGUAGE.md lacks the keyword using"),
    ("docs/REQUESTS.md", "`bool`, `u8`, ", "`bool`, ", "docs/REQUESTS.md lacks the type u8"),
    ("oracle/meaning.py", "= 6, 2**24,", "= 7, 2**24,", "oracle/meaning.py says 7 of the limit: axes of a domain"),
    (
        "docs/REFUSALS.md",
        "more than 6 axes",
        "more than 4 axes",
        "docs/REFUSALS.md says 4 of the limit: axes of a domain",
    ),
    (
        "docs/GLOSSARY.md",
        "# Words of the code\n",
        f"# Words of the code, as `{NOWHERE}`\n",
        f"docs/GLOSSARY.md:1: {NOWHERE} is not there",
    ),
    ("docs/LIMITS.md", "| 6 | `MAX_AXES`", "| 8 | `MAX_AXES`", "docs/LIMITS.md says 8 of MAX_AXES"),
    (
        "docs/LIMITS.md",
        "`MAX_HEIGHT` in",
        "`MAX_HEIGHT` in `csv_out/cells.rt`, `MAX_HEIGHT` in",
        "docs/LIMITS.md: height of a tree: 2 constants",
    ),
    (
        "docs/LIMITS.md",
        "`MAX_UNITS` in",
        "`MOST_UNITS` in",
        "docs/LIMITS.md: units of one StepJob: MOST_UNITS does not begin with MAX_",
    ),
    (
        "oracle/language.py",
        "= 64, 512, 256, 64",
        "= 64, 512, 256, 65",
        "oracle/language.py says 65 of the limit: height of a tree",
    ),
    ("web/syntax.js", "MOST_NAME = 64", "MOST_NAME = 65", "web/syntax.js says 65 of the limit: bytes of a name"),
    ("oracle/store.py", "5: 4, 6: 4}", "5: 4, 6: 2}", "oracle/store.py has other edges of tiles"),
    ("oracle/machine.py", "16, 64, 1000,", "16, 65, 1000,", "oracle/machine.py says 65 of the limit: jobs held"),
    (
        "oracle/store.py",
        "\nLONGEST_METADATA =",
        "\nMOST_TILES = 7\nLONGEST_METADATA =",
        "oracle/store.py: MOST_TILES is compared with no limit",
    ),
    (
        "docs/ARCHITECTURE.md",
        "| `tile_index` | `file_bytes` |",
        "| `tile_index` | |",
        "docs/ARCHITECTURE.md: tile_index stands on file_bytes too",
    ),
    (
        "docs/ARCHITECTURE.md",
        "| `stream_face` | |",
        "| `stream_face` | `disk_face` |",
        "docs/ARCHITECTURE.md: stream_face does not stand on disk_face",
    ),
    (
        "docs/ARCHITECTURE.md",
        "| `Index`, `Entries`, `Bytes` |",
        "| `Index`, `Pairs`, `Bytes` |",
        "docs/ARCHITECTURE.md: tile_index has no specs/Pairs.antt",
    ),
]


def copied(tree, path, name, names):
    """A function, a definition or an enum of a file, with other names. A method is one of no type."""
    with open(f"{tree}/crates/{path}", encoding="utf-8") as file:
        text = file.read()
    if path.endswith(".antt"):
        found = re.search(rf"^(?:abbrev |unfoldable )?(?:pub )?{name} .*\n(?:.+\n)*", text, re.M)
    else:
        found = re.search(rf"^( *)(?:pub(?:\([a-z]+\))? )?{name}\b.*?^\1\}}\n", text, re.M | re.S)
    if not found:
        sys.exit(f"{path} has no {name}")
    owners = re.findall(r"^impl (\w+)", text[: found.start()], re.M)
    text = re.sub(r"\((&?)self\b(?=[,)])", lambda it: f"(self: {it[1]}{owners[-1]}", found[0], count=1)
    return re.sub(r"\w+", lambda it: names.get(it[0], it[0]), text).rstrip("\n")


def behind(tree, path, text, told):
    """Writes a text behind the end of a file, and tells what may be found for it: the same of each of its lines."""
    with open(f"{tree}/crates/{path}", "r+", encoding="utf-8") as file:
        first = file.read().count("\n") + 1
        file.write(f"{text}\n")
    return [f"{path}:{first + k}: {told}" for k in range(text.count("\n") + 1)]


def planted(tree):
    """Says each fact once more in a tree, and tells for each what may be found for it."""
    texts = []
    for home, name, path, names in COPIES:
        words = names.split()
        others, own = dict(zip(words[::2], words[1::2])), name.split()[-1]
        texts.append((path, "\n" + copied(tree, home, name, others), f"{others.get(own, own)}: a"))
    for path, text, told in LINES + texts:
        yield behind(tree, path, text, told)
    for path, old, new, told in CHANGES:
        with open(f"{tree}/{path}", "r+", encoding="utf-8") as file:
            text = file.read()
            if text.count(old) != 1:
                sys.exit(f"{path} has {text.count(old)} times {old}")
            file.seek(0)
            file.truncate()
            file.write(text.replace(old, new))
        yield [told]


def checked(tree):
    """The status of the check of a tree, and what it says."""
    done = subprocess.run([f"{tree}/scripts/check.py"], capture_output=True, text=True, check=False)
    return done.returncode, done.stdout + done.stderr


def main():
    with tempfile.TemporaryDirectory(prefix="homes-") as room:
        tree = f"{room}/tree"
        left_out = shutil.ignore_patterns("out", "must-fail", "__pycache__", ".git")
        shutil.copytree(TOP, tree, ignore=left_out, symlinks=True)
        status, said = checked(tree)
        if status:
            print(said, "second homes: the check fails where nothing is planted", sep="")
            return 1
        wanted = list(planted(tree))
        status, said = checked(tree)
    lines = said.splitlines()
    missing = [it[0] for it in wanted if not any(line.startswith(tuple(it)) for line in lines)]
    print(*(f"not found: {it}" for it in missing), sep="\n", end="\n" if missing else "")
    print(f"second homes: {len(wanted)} planted, {len(missing)} not found, the check ends with status {status}")
    return 1 if missing or not status else 0


if __name__ == "__main__":
    sys.exit(main())
