// Which devices may still move although no cue waits for their motion. The store says only that a device failed. The
// relay says in which attempt it moves, until an answer shows that this is over: one that failed there was released,
// and nobody knows whether it stands still.

"use strict";
// A relay writes ten times a second: what it says of a device may be older than what the store says of it.
const SETTLED = 300;
// Of each device that is known to be so: in which attempt it moves, and since when that is known. And the attempt of
// whose motion somebody said in this browser that it has ended.
const since = new Map(), still = new Map(), HOUR = 3600000;

// A page with buttons keeps what it says of them for an hour, over a new start of the desk, and tells its other
// windows. One that only shows has no way to take them away.
let keptMoving = "";
const movingText = () => JSON.stringify({ moving: movingNow().map((device) => [device, since.get(device).attempt]),
  still: [...still] });

function keepMoving() {
  keptMoving = movingText();
  if (!manner.readonly) keep("moving", JSON.stringify({ at: Date.now(), kept: keptMoving }));
}

function takeMoving() {
  const told = JSON.parse(recall("moving"));
  if (manner.readonly || !told || Date.now() - told.at > HOUR) return;
  const kept = JSON.parse(told.kept);
  for (const [device, attempt] of kept.moving)
    if (!since.has(device)) since.set(device, { at: -Infinity, attempt });
  for (const [device, attempt] of kept.still) saysStill(device, attempt);
}

function recallMoving() {
  try { takeMoving(); } catch (error) { /* nothing was kept */ }
  keptMoving = movingText();
}

addEventListener("storage", (event) => { if (event.key === "cuedesk-moving") recallMoving(); });

// What is told of an attempt that has ended.
const endOf = (attempt) => [view.last, ...view.past, ...view.failed].find((told) => told && told.attempt === attempt);

// The newest attempt that is told of.
const newest = () => Math.max(0, ...[...view.live, view.last, ...view.past].map((one) => one ? one.attempt : 0));

// Whether the device failed in the attempt, or was released. Of an older one that nobody tells of any more that is so:
// else the relay would know of its end.
function failedIn(device, attempt) {
  const live = view.live.find((one) => one.attempt === attempt), told = endOf(attempt);
  if (live) return live.devices.some((each) => each.device === device && each.answer === "failed");
  return told ? told.failed.includes(device) : attempt < newest();
}

const isWaitedFor = (device) => view.live.some((one) => waitedFor(one).includes(device));
const isLeft = (contact) => contact.moving !== null && failedIn(contact.device, contact.moving);

// It stands by or has gone in an attempt that is newer than this one.
const hasGoneOn = (device, attempt) => view.live.filter((one) => one.attempt > attempt)
  .flatMap((one) => one.devices).some((each) => each.device === device && ["ready", "done"].includes(each.answer));

// An answer has shown that the motion is over, or it has gone on: it is not sent GO before it has stood by. A relay
// that was started again knows of no motion, and tells of none that it is over before the device has shown it.
function hasEnded(device, attempt) {
  const { moving, over } = contactOf(device) || { moving: null, over: null };
  return hasGoneOn(device, attempt) || over !== null && over >= attempt || moving !== null && moving > attempt;
}

// What is newer than the last attempt of the store is of another store, that was served before.
function forgetOthers() {
  if (view.read === null) return;
  for (const [device, one] of [...since]) if (one.attempt > newest()) since.delete(device);
  for (const [device, attempt] of [...still]) if (attempt > newest()) still.delete(device);
}

function followMoving() {
  forgetOthers();
  for (const [device, one] of [...since]) if (hasEnded(device, one.attempt)) since.delete(device);
  for (const [device, attempt] of [...still]) if (hasEnded(device, attempt)) still.delete(device);
  for (const { device, moving } of view.network.filter(isLeft))
    if (still.get(device) !== moving && !(since.has(device) && since.get(device).attempt === moving))
      since.set(device, { at: now(), attempt: moving });
  if (movingText() !== keptMoving) keepMoving();
}

// Somebody has looked: what moved in that attempt is at rest.
function saysStill(device, attempt) {
  still.set(device, attempt);
  if (since.has(device) && since.get(device).attempt === attempt) since.delete(device);
}

function standsStill(device) {
  saysStill(device, since.get(device).attempt);
  keepMoving();
  draw();
}

const mayMove = (device) => since.has(device) && now() - since.get(device).at > SETTLED;

// What the devices did that failed in the attempt. Before a GO only an abort is a failure. After it nobody can tell an
// abort from a release by the store; the relay knows of some that they have not answered their GO.
function failedWords(devices, isGiven, attempt) {
  const moving = isGiven ? devices.filter((one) => mayMove(one) && since.get(one).attempt === attempt) : [];
  const others = devices.filter((one) => !moving.includes(one));
  const words = (some, did) => some.length ? ": device " + devicesWords(some) + did : "";
  return words(others, isGiven ? " aborted or released" : " aborted")
    + words(moving, " was released: it may still move");
}

// Those that failed after a GO, and of which no relay says whether they have answered it.
const isUnknown = (devices, isGiven) => isGiven && devices.some((one) => !contactOf(one));
const UNKNOWN = "; one that was released may still move";

function movingAlarm(device) {
  const words = " was released, and may still move" + (isWaitedFor(device) ? "" : ": no cue waits for it");
  return { kind: "moving", of: device, words: "device " + called(device, deviceName(device)) + words };
}

const movingNow = () => [...since.keys()].filter(mayMove);
const movingAlarms = () => movingNow().map(movingAlarm);
