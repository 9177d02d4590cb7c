// What all of the page's scripts share: the view that is drawn, the elements, names, and a button of the view.

"use strict";
const DARK = 1000, SURE = 3000, LATE = 250;
const at = (id) => document.getElementById(id);
const now = () => performance.now();
let run = null, view = null, heard = 0, missed = 0, names = { cues: new Map(), devices: new Map() };
let manner = { locked: false, readonly: false, told: null, rehearsed: false, marks: null };
let sure = { press: "", until: 0 }, wasDark = true;
const shown = {};

// An element with a class and a text.
function make(tag, name, text) {
  const made = document.createElement(tag);
  if (name) made.className = name;
  if (text !== undefined) made.textContent = text;
  return made;
}

// Puts the parts into a place where they differ from those that it has; what has the focus keeps it.
function place(id, parts, key) {
  if (shown[id] === key) return;
  shown[id] = key;
  const focus = document.activeElement && document.activeElement.id;
  at(id).replaceChildren(...parts());
  if (focus && at(focus)) at(focus).focus();
}

// Puts a text if it differs from the one that is there.
function write(id, text) {
  if (at(id).textContent !== text) at(id).textContent = text;
}

const seconds = (millis) => (millis / 1000).toFixed(1);
// The desk does not answer: it is silent for a second, or nobody listened twice where it was.
const isDark = () => !view || now() - heard > DARK || missed > 1;
const isHeld = () => isDark() || manner.readonly;
const litOf = (kind, of) => isHeld() ? undefined : view.lit.find((lit) => lit.kind === kind && of(lit));
const NO_CUE = { name: "", note: "", color: null, flag: null };
const factsOf = (cue) => names.cues.get(cue) || NO_CUE;
const cueName = (cue) => factsOf(cue).name;
const deviceName = (device) => names.devices.get(device) || "";
const called = (number, name) => name ? number + " " + name : "" + number;
const cueWords = (told) => told.cue === null ? "an earlier cue" : "cue " + called(told.cue, cueName(told.cue));
const withWords = (cues) => cues.length ? " with " + cues.join(", ") : "";
// A name may have a comma: so a list of devices has semicolons.
const devicesWords = (devices) => devices.map((device) => called(device, deviceName(device))).join("; ");

// What the show file marks a cue with: a sign of its flag with the word, and a bar of its colour with the word.
const FLAGS = { danger: "\u26a0 DANGER", fly: "\u25b2 FLY", trap: "\u25bc TRAP" };
function marks(cue) {
  const { color, flag } = factsOf(cue), all = [];
  if (flag) all.push(make("span", "flag " + flag, FLAGS[flag]));
  if (color) all.push(make("span", "color " + color, color));
  return all;
}

// Says on a button whether it is pressed for the second time.
function dress(made, isSure, text, label) {
  made.className = isSure ? "small sure" : "small";
  made.textContent = isSure ? "Press again: " + text : text;
  made.setAttribute("aria-label", isSure ? "Press again: " + label : label);
}

// A press that asks once more is made twice in three seconds.
function pressTwice(press) {
  const isSure = sure.press === press && now() < sure.until;
  sure = isSure ? { press: "", until: 0 } : { press, until: now() + SURE };
  if (isSure) send(press);
  else draw();
}

// A button of the view: dark if the view has it not lit.
function button(id, text, label, lit, asks) {
  const made = make("button");
  dress(made, lit && sure.press === lit.press, text, label);
  made.id = id;
  made.type = "button";
  made.disabled = !lit;
  if (lit) made.addEventListener("click", (event) => {
    if (event.detail > 0) event.currentTarget.blur();
    if (asks) pressTwice(lit.press);
    else send(lit.press);
  });
  return made;
}
