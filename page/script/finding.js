// The field that finds a cue in the list, by its number or by a piece of its name. It moves nothing but the list.

"use strict";
// The cues that fit what is in the field, and which of them is shown.
let fitting = [], turn = 0, foundRow = null;

// The cue of this number first, then those whose number begins so, or whose name has it.
function cuesThatFit(text) {
  const wanted = text.trim().toLowerCase();
  if (!wanted || !view) return [];
  const fits = (cue) => cue.startsWith(wanted) || cueName(cue).toLowerCase().includes(wanted);
  return [...view.stack.filter((cue) => cue === wanted), ...view.stack.filter((cue) => cue !== wanted && fits(cue))];
}

function showFound() {
  if (foundRow) foundRow.line.classList.remove("found");
  foundRow = rows.get(fitting[turn]) || null;
  if (foundRow) {
    foundRow.line.classList.add("found");
    showRow(foundRow);
  }
  const count = fitting.length;
  write("found", count ? "cue " + fitting[turn] + ", " + (turn + 1) + " of " + count : at("find").value ? "none" : "");
}

at("find").addEventListener("input", () => {
  fitting = cuesThatFit(at("find").value);
  turn = 0;
  showFound();
});

// Enter is the next one that fits, with Shift the one before; Esc leaves the field. No key of the field is a press.
at("find").addEventListener("keydown", (event) => {
  event.stopPropagation();
  if (event.key === "Escape") {
    at("find").value = "";
    fitting = [];
    showFound();
    at("find").blur();
  } else if (event.key === "Enter" && fitting.length) {
    turn = (turn + (event.shiftKey ? fitting.length - 1 : 1)) % fitting.length;
    showFound();
  }
});
