// The page's plain scripts, for node: they are run in the order in which the page has them, and their functions are handed out.
import { readFileSync } from "node:fs";
import { join } from "node:path";
import { fileURLToPath } from "node:url";
import { runInThisContext } from "node:vm";

export const viewer = fileURLToPath(new URL("..", import.meta.url));
for (const name of ["read.js", "state.js", "timeline.js", "marks.js", "ways.js", "layout.js"]) {
  runInThisContext(readFileSync(join(viewer, name), "utf8"), { filename: join(viewer, name) });
}
const NAMES = [
  "readTree", "readTrace", "Malformed", "STAGES", "NOBODY", "stateAt", "accountAt", "accountLine", "accountChanges", "sessionChanges", "nextOf", "linesUpTo",
  "lineText", "inputsAt", "signalsAt", "inputsTold", "SECTIONS", "bytes", "sentence", "changeWords", "sessionWords", "layout", "layoutIn", "wholeWindow",
  "windowAround", "columnEvents", "bandOf", "laneOf", "marksOf", "peakOf", "eventIn", "fragmentOf", "coloursOf", "colourValue", "shortened", "firstOf", "labelsOf",
];
export const page = runInThisContext(`({ ${NAMES} })`);
