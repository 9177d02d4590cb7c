// How a press is called: by the names of its cue and device, as they stand elsewhere on the page. Its own text has the
// number of an attempt, which nobody at the desk knows.

"use strict";
const namedCue = (cue) => "cue " + called(cue, cueName(cue));
const namedDevice = (device) => "device " + called(device, deviceName(device));

// The cue of an attempt, as long as the view tells of it.
function cueOf(attempt) {
  const told = view && [...view.live, view.last, ...view.past, ...view.failed];
  const found = told && told.find((one) => one && one.attempt === Number(attempt));
  return found ? found.cue : null;
}

// The cue of an attempt with a word before it; nothing if the cue is not known any more.
function withCue(word, attempt) {
  const cue = cueOf(attempt);
  return cue === null ? "" : word + namedCue(cue);
}

// Each press by its verb: what it asks for, and what it has done once it is made.
const ASKED = {
  standby: (cue) => "STANDBY of " + namedCue(cue),
  go: (cue) => "GO of " + namedCue(cue),
  cancel: (cue) => "CANCEL of " + namedCue(cue),
  release: (attempt, device) => "Release of " + namedDevice(Number(device)) + withCue(" from ", attempt),
  goto: (cue) => "Move to " + namedCue(cue),
  choose: (attempt) => "Choose for GO" + withCue(" of ", attempt),
  seen: (attempt) => "Seen" + withCue(" of ", attempt),
};
const DONE = {
  standby: (cue) => "STANDBY given for " + namedCue(cue),
  go: (cue) => "GO given for " + namedCue(cue),
  cancel: (cue) => "CANCEL given for " + namedCue(cue),
  release: (attempt, device) => namedDevice(Number(device)) + " released" + withCue(" from ", attempt),
  goto: (cue) => "The place is " + namedCue(cue),
};

// STANDBY of the next cue names those that stand by together with it.
function inWords(kinds, press) {
  const [verb, first, second] = press.split(" ");
  const isNext = verb === "standby" && view && view.next.cue === first;
  return (kinds[verb] ? kinds[verb](first, second) : press) + (isNext ? withWords(view.next.with) : "");
}

const pressWords = (press) => inWords(ASKED, press);

// A press that was made, in words; null if such a press makes nothing that is sent.
const doneWords = (press) => DONE[press.split(" ")[0]] ? inWords(DONE, press) : null;
