// What changes with each view: seconds, and when devices were heard. It stands where it stands, and no button is made
// anew for it.

"use strict";
// The last of the ten seconds, in milliseconds.
const SOON = 3000;
const isSoon = (attempt) => isOpen(attempt) && attempt.left <= SOON;

function showSeconds(attempt) {
  const bar = at("bar-" + attempt.attempt);
  if (bar) {
    bar.setAttribute("aria-valuenow", seconds(attempt.left));
    bar.firstChild.style.width = Math.min(100, attempt.left / 100) + "%";
    write("left-" + attempt.attempt, attempt.left ? seconds(attempt.left) + " s left" : "over");
    at("left-" + attempt.attempt).classList.toggle("soon", isSoon(attempt));
  }
  if (attempt.given !== null) write("since-" + attempt.attempt, seconds(attempt.given) + " s");
}

// `more`: what is said after it.
function showHeard(cell, contact, more) {
  if (!cell) return;
  cell.className = contact && contact.silent ? "silent" : "heard";
  const words = !contact ? "" : (contact.silent ? "\u2715 " : "") + contact.heard + more;
  if (cell.textContent !== words) cell.textContent = words;
}

// The relay writes ten times a second. What it wrote of a device before that device answered is not of now.
const isPassed = (contact, answer) => contact !== undefined
  && ((answer === "ready" && contact.heard.includes("STANDBY sent"))
  || (answer === "done" && contact.heard.includes(" sent, ")));
const contactBeside = (one) => isPassed(contactOf(one.device), one.answer) ? undefined : contactOf(one.device);

function heardLine(contact) {
  const line = make("li"), words = make("span");
  words.id = "heard-" + contact.device;
  line.append(make("span", "number", contact.device), make("span", "", deviceName(contact.device)), words,
    claimsBox(contact));
  return line;
}

function showNetwork() {
  at("network").hidden = !view.network.length;
  place("heard", () => view.network.map(heardLine), JSON.stringify([view.network.map((one) => one.device), renamed]));
  for (const contact of view.network) {
    showHeard(at("heard-" + contact.device), contact, "");
    showClaims(contact);
  }
  for (const attempt of view.live) for (const one of attempt.devices)
    showHeard(at("heard-" + attempt.attempt + "-" + one.device), contactBeside(one), saysWhere(contactBeside(one)));
}

// Who is silent, before it is long enough to be an alarm: the desk itself, else the controller and the relay.
function lateWords() {
  const waited = now() - heard;
  if (waited >= LATE) return "; desk silent for " + seconds(waited) + " s";
  return ["serve", "relay"].filter((who) => view.late[who] !== null)
    .map((who) => "; " + who + " silent for " + seconds(view.late[who] + waited) + " s").join("");
}

function showAge() {
  const dark = isDark(), late = dark ? "" : lateWords();
  const age = view && view.read !== null ? view.read + now() - heard : null;
  at("age").className = dark ? "old" : late ? "late" : "";
  write("age", !view ? "no view yet" : dark ? "OLD: the desk does not answer"
    : (age === null ? "nothing was read yet" : "read " + seconds(age) + " s ago") + late);
}

function showTimes() {
  view.live.forEach(showSeconds);
  showNetwork();
}
