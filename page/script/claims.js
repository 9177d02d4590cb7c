// What devices told the relay of themselves: why one aborted, how far it is, and who made it. It is always said to be
// told by them, shown as text alone, and decides nothing.

"use strict";
// Where each device was when it was first seen to move in the attempt in which the relay says that it moves.
const begun = new Map();

// Why the device says that it aborted the attempt; null if it says nothing of that one.
function reasonOf(device, attempt) {
  const contact = contactOf(device), reason = contact ? contact.claims.reason : null;
  return reason && reason.attempt === attempt ? "\"" + reason.words + "\"" : null;
}

// What those say that failed in the attempt.
function saysWords(devices, attempt) {
  const who = (one) => devices.length > 1 ? "device " + one : "it";
  return devices.filter((one) => reasonOf(one, attempt) !== null)
    .map((one) => "; " + who(one) + " says: " + reasonOf(one, attempt)).join("");
}

// The same of a cue that is live, with a line for each.
const failedOf = (attempt) => attempt.devices.filter((one) => one.answer === "failed").map((one) => one.device);
function saysLines(attempt) {
  const said = failedOf(attempt).map((one) => [one, reasonOf(one, attempt.attempt)]).filter(([, words]) => words);
  return said.map(([one, words]) => make("p", "says", "device " + called(one, deviceName(one)) + " says: " + words));
}

const positionWords = ({ at, goal, unit }) => "at " + at + " of " + goal + (unit ? " " + unit : "");
const reasonWords = ({ attempt, words }) => "\"" + words + "\"" + (withCue(" (", attempt) || " (an earlier cue") + ")";

// All that a device told of itself.
function claimWords({ identity, position, reason }) {
  const made = identity && "it is \"" + identity + "\"";
  const all = [position && positionWords(position), reason && reasonWords(reason), made];
  return all.filter((words) => words !== null).join("; ");
}

const saysWhere = (contact) =>
  contact && contact.claims.position ? "; says: " + positionWords(contact.claims.position) : "";

function followWays() {
  for (const { device, moving, claims: { position } } of view.network) {
    const first = begun.get(device);
    if (moving === null) begun.delete(device);
    else if (position && !(first && first.attempt === moving)) begun.set(device, { attempt: moving, at: position.at });
  }
}

// How much of its way a device has gone since it was seen to move, in percent; null if it tells nothing of it.
function wayOf({ device, moving, claims: { position } }) {
  const first = begun.get(device);
  if (moving === null || !position || !first) return null;
  const gone = position.at - first.at, whole = position.goal - first.at;
  return Math.round(100 * (whole === 0 ? Number(gone === 0) : Math.min(1, Math.max(0, gone / whole))));
}

// The place of what a device told, in the list of devices.
function claimsBox(contact) {
  const box = make("div", "says"), words = make("span"), bar = make("div", "progress");
  box.id = "says-" + contact.device;
  words.id = "claims-" + contact.device;
  bar.id = "way-" + contact.device;
  bar.setAttribute("role", "progressbar");
  bar.setAttribute("aria-label", "Way of device " + called(contact.device, deviceName(contact.device))
    + ", told by the device");
  bar.setAttribute("aria-valuemin", 0);
  bar.setAttribute("aria-valuemax", 100);
  bar.append(make("i"));
  box.append(words, bar);
  return box;
}

function showClaims(contact) {
  const words = claimWords(contact.claims), way = wayOf(contact), bar = at("way-" + contact.device);
  at("says-" + contact.device).hidden = !words;
  write("claims-" + contact.device, words ? "told by the device: " + words : "");
  bar.hidden = way === null;
  if (way === null) return;
  bar.setAttribute("aria-valuenow", way);
  bar.setAttribute("aria-valuetext", positionWords(contact.claims.position));
  bar.firstChild.style.width = way + "%";
}
