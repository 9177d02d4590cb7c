// How the page draws the cue that is next, and the whole stack. A row is made once; what changes on it is changed
// where it stands.

"use strict";
// The rows by their cues; the cue whose row is marked as the place; and the one whose button asks once more.
let rows = new Map(), here, armed = null, renamed = 0;

const canMove = () => !isHeld() && view.moves;

function cueRow(cue) {
  const { name, note, color } = factsOf(cue), line = make("li"), words = make("span", "words", name);
  const mark = make("span", "mark"), move = make("button");
  dress(move, false, "Move here", "Move the place to cue " + cue);
  move.id = "goto-" + cue;
  move.type = "button";
  move.dataset.cue = cue;
  for (const each of marks(cue)) words.append(" ", each);
  line.append(make("span", "bar " + (color || "")), mark, make("span", "number", cue), words, move);
  if (note) line.append(make("span", "note", note));
  return { cue, line, mark, move };
}

function cueRows() {
  rows = new Map(view.stack.map((cue) => [cue, cueRow(cue)]));
  here = undefined;
  armed = null;
  return [...rows.values()].map((row) => row.line);
}

// Scrolls the list so that this row stands in its upper third. Rows that were never in sight have no height of their
// own yet, so it is looked at again once those around it are there.
function showRow(row, again = 3) {
  const list = at("list"), top = row.line.offsetTop - (list.clientHeight - row.line.offsetHeight) / 3;
  if (Math.abs(list.scrollTop - top) > 1) list.scrollTop = top;
  if (again) requestAnimationFrame(() => { if (rows.get(row.cue) === row) showRow(row, again - 1); });
}

function toPlace() {
  const row = view && rows.get(view.next.cue);
  if (row) showRow(row);
}

// Marks the row of the place, and scrolls to it if it has moved.
function showHere() {
  if (view.next.cue === here) return;
  for (const [cue, isHere] of [[here, false], [view.next.cue, true]]) {
    const row = rows.get(cue);
    if (!row) continue;
    row.mark.textContent = isHere ? "\u25b6" : "";
    row.move.hidden = isHere;
    if (isHere) row.line.setAttribute("aria-current", "step");
    else row.line.removeAttribute("aria-current");
  }
  here = view.next.cue;
  toPlace();
}

// Says on the row of a move that was pressed once that it asks once more.
function showArmed() {
  const cue = sure.press.startsWith("goto ") ? sure.press.slice(5) : null;
  if (cue === armed) return;
  for (const [one, isSure] of [[armed, false], [cue, true]]) {
    const row = rows.get(one);
    if (row) dress(row.move, isSure, "Move here", "Move the place to cue " + one);
  }
  armed = cue;
}

function nextCard() {
  const { cue, why, with: others } = view.next;
  if (cue === null) return [make("p", "empty", why)];
  const title = make("strong"), { name, note, color } = factsOf(cue);
  title.append(make("span", "number", cue), " " + name);
  const marked = make("div", "marks");
  marked.append(...marks(cue));
  const together = make("span", "together", withWords(others.map((one) => called(one, cueName(one)))));
  return [make("span", "bar " + (color || "")), marked, title, together, make("span", "note", note)];
}

// The way back after a move: the move to that cue, as long as the view has it.
function showBack() {
  const cue = view.back, press = "goto " + cue;
  at("back").hidden = cue === null;
  at("back").disabled = !canMove() || !view.stack.includes(cue);
  dress(at("back"), sure.press === press, "Back to cue " + cue, "Move the place back to cue " + cue);
}

function showStack() {
  place("stack", cueRows, JSON.stringify([view.stack, renamed]));
  if (at("moves").disabled === canMove()) at("moves").disabled = !canMove();
  showHere();
  showArmed();
  showBack();
  place("next", nextCard, JSON.stringify([view.next, renamed]));
}

at("stack").addEventListener("click", (event) => {
  const move = event.target.closest("button");
  if (!move || !canMove()) return;
  if (event.detail > 0) move.blur();
  pressTwice("goto " + move.dataset.cue);
});

at("back").addEventListener("click", (event) => {
  if (event.detail > 0) event.currentTarget.blur();
  if (canMove() && view.back !== null) pressTwice("goto " + view.back);
});

at("to-place").addEventListener("click", (event) => {
  if (event.detail > 0) event.currentTarget.blur();
  toPlace();
});
