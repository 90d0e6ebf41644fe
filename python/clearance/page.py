"""One HTML page of a map: its picture and, for the cell under the pointer, its letter, its place and the bounds that the
library gives for one point of it. The page asks for nothing from anywhere."""

import base64
import html
import json
import re
import struct

from . import sheets
from .lengths import PLACES
from .picture import MEANINGS, NAMES, NOTE, TITLE

# Stands for bounds that the library cannot be asked for.
NONE = -1
# So many pixels beside the picture are room enough for the text.
BESIDE = 360


def spot(job, column, row):
    """The point of a cell that the library is asked about, in hundredths: its centre, or its lower left corner where the side is 1."""
    side = 1 << job.m
    return job.x + column * side + side // 2, job.y + row * side + side // 2


def spot_name(job):
    return "centre" if job.m else "lower left corner"


def answerable(point):
    """The library refuses a point with a coordinate out of range; a plate may stretch beyond it."""
    lowest, highest = sheets.COORDINATES
    return all(lowest <= number <= highest for number in point)


def bounds(drawn):
    """The lower and the upper bound of each cell's point, rows from the lowest up, in ten-thousandths of a millimetre and rounded outwards.

    All are below 2^31. A leaf's box holds a point of the outline and is at most two grains, 2,000 mm, wide and high; that point
    and the one asked about are within 10,000 mm of 0 in x and in y. So no spot of the box is more than 22,000 mm away in x or
    in y, and hi, the distance of one of them, is below 31,200 mm.
    """
    side = drawn.map.side
    spots = [spot(drawn.job, column, row) for row in range(side) for column in range(side)]
    asked = [index for index, point in enumerate(spots) if answerable(point)]
    found = [(NONE, NONE)] * len(spots)
    replies = drawn.points_at([spots[index] for index in asked])
    for index, nearest in zip(asked, replies):
        found[index] = int(nearest.lo.scaleb(PLACES)), int(nearest.hi.scaleb(PLACES))
    return found


def packed(numbers):
    """Numbers of 32 bits, the lowest byte first, in base 64."""
    return base64.b64encode(struct.pack(f"<{len(numbers)}i", *numbers)).decode("ascii")


def embedded(job, rows, pairs):
    """What the page's script reads. Nothing in it can end the element that it stands in."""
    data = {
        "side": len(rows),
        "x": job.x,
        "y": job.y,
        "cell": 1 << job.m,
        "half": (1 << job.m) // 2,
        "names": NAMES,
        "meanings": MEANINGS,
        "letters": "".join(rows),
        "bounds": packed([number for pair in pairs for number in pair]),
    }
    return json.dumps(data, separators=(",", ":")).replace("<", "\\u003c")


def page(name, source, svg, width, drawn, rows):
    """The page of a map: `name` is its sheet's, `source` says where its letters are from, `svg` is its picture of this width."""
    values = {
        "NAME": html.escape(name),
        "SOURCE": html.escape(source),
        "SPOT": html.escape(spot_name(drawn.job)),
        "NOTE": html.escape(NOTE),
        # A browser would show the picture's title beside the pointer.
        "PICTURE": svg.strip().replace(TITLE, ""),
        "DATA": embedded(drawn.job, rows, bounds(drawn)),
        "SCRIPT": SCRIPT.strip(),
        "STYLE": STYLE.strip().replace("@WIDE@", str(width + BESIDE)).replace("@WIDTH@", str(width)),
    }
    # In one pass, so that nothing that was put in is looked at again.
    return re.sub("@([A-Z]+)@", lambda found: values[found.group(1)], PAGE)


PAGE = """\
<!DOCTYPE html>
<html lang="en">
<head>
<meta charset="utf-8">
<meta name="viewport" content="width=device-width, initial-scale=1">
<meta http-equiv="Content-Security-Policy" content="default-src 'none'; style-src 'unsafe-inline'; script-src 'unsafe-inline'">
<title>@NAME@: clearance map</title>
<style>
@STYLE@
</style>
</head>
<body>
<h1>Clearance map of @NAME@</h1>
<main>
<div id="map" tabindex="0" role="application" aria-roledescription="map" aria-describedby="keys"
 aria-label="Clearance map. The arrow keys move from cell to cell.">
@PICTURE@
</div>
<dl id="readout" role="status" aria-live="polite" aria-atomic="true" aria-label="The cell">
<dt>cell</dt><dd id="cell">none yet</dd>
<dt>letter</dt><dd id="letter">&nbsp;</dd>
<dt>x</dt><dd id="across">&nbsp;</dd>
<dt>y</dt><dd id="up">&nbsp;</dd>
<dt>@SPOT@</dt><dd id="spot">&nbsp;</dd>
<dt class="whole">distance of the cell's @SPOT@ from the outline</dt><dd class="whole" id="distance">&nbsp;</dd>
</dl>
<div id="notes">
<p id="keys">Point at the plate, or select it and use the arrow keys, with Shift for ten cells. Home and End go to the ends of a row.</p>
<p>Columns and rows are counted from 0 at the lower left; x and y are the drawing's. No point of the outline is nearer to the cell's @SPOT@
than the first distance, and some point of the outline is within the second: both are the library's bounds. @SOURCE@ @NOTE@.</p>
<noscript><p>Without scripts the page shows the picture alone.</p></noscript>
</div>
</main>
<script type="application/json" id="data">@DATA@</script>
<script>
@SCRIPT@
</script>
</body>
</html>
"""

# Where there is room for it, what the page says stands beside the picture; elsewhere the cell's lines stay at the window's lower end.
STYLE = """
body { margin: 1rem; font: 1rem/1.4 sans-serif; color: #111111; background: #ffffff; }
h1 { font-size: 1.2rem; margin: 0 0 0.6rem; overflow-wrap: anywhere; }
#map { width: fit-content; max-width: 100%; cursor: crosshair; }
#map:focus-visible { outline: 3px solid #1a5fb4; outline-offset: 2px; }
#map svg { display: block; max-width: 100%; height: auto; }
#readout { display: grid; grid-template-columns: auto 1fr; gap: 0 0.8rem; margin: 0; padding: 0.4rem 0; font-size: 0.85rem;
 position: sticky; bottom: 0; background: #ffffff; border-top: 2px solid #111111; border-bottom: 1px solid #999999; }
dt { color: #444444; }
dd { margin: 0; font-variant-numeric: tabular-nums; font-weight: 600; }
.whole { grid-column: 1 / 3; }
#notes { max-width: 30rem; font-size: 0.85rem; }
@media (min-width: @WIDE@px) {
  main { display: grid; grid-template: auto 1fr / @WIDTH@px minmax(18rem, 30rem); gap: 0 1.5rem; align-items: start; }
  #map { grid-row: 1 / 3; }
  #readout { font-size: 1rem; gap: 0.1rem 0.8rem; }
}
"""

SCRIPT = """
(function () {
  "use strict";
  const data = JSON.parse(document.getElementById("data").textContent);
  const bytes = Uint8Array.from(atob(data.bounds), (letter) => letter.charCodeAt(0));
  const bounds = new DataView(bytes.buffer);
  const map = document.getElementById("map");
  const picture = map.querySelector("svg");
  const frame = document.getElementById("frame");
  const [left, top, plate] = ["x", "y", "width"].map((name) => Number(frame.getAttribute(name)));
  const marks = [["#ffffff", 4], ["#111111", 1.6]].map(([colour, width]) => {
    const mark = document.createElementNS("http://www.w3.org/2000/svg", "rect");
    mark.setAttribute("fill", "none");
    mark.setAttribute("stroke", colour);
    mark.setAttribute("stroke-width", width);
    return mark;
  });
  let chosen = null;

  // A whole number of 10^-places millimetres.
  function told(number, places) {
    const digits = String(Math.abs(number)).padStart(places + 1, "0");
    return (number < 0 ? "-" : "") + digits.slice(0, -places) + "." + digits.slice(-places);
  }

  function put(id, words) {
    document.getElementById(id).textContent = words;
  }

  function distance(index) {
    const [lo, hi] = [bounds.getInt32(8 * index, true), bounds.getInt32(8 * index + 4, true)];
    if (lo < 0) return "the library answers for coordinates from -10000 to 10000 mm only";
    return told(lo, 4) + " to " + told(hi, 4) + " mm (rounded outwards)";
  }

  function markCell(column, row) {
    const side = plate / data.side;
    for (const mark of marks) {
      mark.setAttribute("x", left + column * side - 1);
      mark.setAttribute("y", top + plate - (row + 1) * side - 1);
      mark.setAttribute("width", side + 2);
      mark.setAttribute("height", side + 2);
      picture.appendChild(mark);
    }
  }

  function choose(column, row) {
    chosen = [column, row];
    const index = row * data.side + column;
    const letter = data.letters[index];
    const [x, y] = [data.x + column * data.cell, data.y + row * data.cell];
    put("cell", "column " + column + ", row " + row);
    put("letter", letter + ", " + data.names[letter] + ": " + data.meanings[letter]);
    put("across", told(x, 2) + " to " + told(x + data.cell, 2) + " mm");
    put("up", told(y, 2) + " to " + told(y + data.cell, 2) + " mm");
    put("distance", distance(index));
    put("spot", "x " + told(x + data.half, 2) + " mm, y " + told(y + data.half, 2) + " mm");
    markCell(column, row);
  }

  function within(number) {
    return Math.min(Math.max(number, 0), data.side - 1);
  }

  function point(event) {
    const at = new DOMPoint(event.clientX, event.clientY).matrixTransform(picture.getScreenCTM().inverse());
    const column = Math.floor((at.x - left) / plate * data.side);
    const row = Math.floor((top + plate - at.y) / plate * data.side);
    if (column === within(column) && row === within(row)) choose(column, row);
  }

  function press(event) {
    const step = event.shiftKey ? 10 : 1;
    const moves = {
      ArrowLeft: [-step, 0], ArrowRight: [step, 0], ArrowDown: [0, -step], ArrowUp: [0, step],
      Home: [-data.side, 0], End: [data.side, 0],
    };
    if (!(event.key in moves) || event.ctrlKey || event.altKey || event.metaKey) return;
    event.preventDefault();
    const [column, row] = chosen || [0, 0];
    const [across, up] = chosen ? moves[event.key] : [0, 0];
    choose(within(column + across), within(row + up));
  }

  // The address may end in #COLUMN,ROW.
  function address() {
    const found = /^#([0-9]{1,3}),([0-9]{1,3})$/.exec(location.hash);
    if (found) choose(within(Number(found[1])), within(Number(found[2])));
  }

  map.addEventListener("pointermove", point);
  map.addEventListener("pointerdown", point);
  map.addEventListener("keydown", press);
  window.addEventListener("hashchange", address);
  address();
})();
"""
