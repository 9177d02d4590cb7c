// How the page draws what is wrong, and how attempts ended; and what a screen reader is told.

"use strict";
let spoken = "";

function endWords(told) {
  const failed = failedWords(told.failed, told.outcome === "failed", told.attempt);
  const without = told.excused.length ? " without device " + devicesWords(told.excused) : "";
  return cueWords(told) + ": " + told.outcome + (told.reason ? ": " + told.reason : "") + failed
    + saysWords(told.failed, told.attempt) + without;
}

// That nobody stands by for a cue any more, and why.
const lostWords = (attempt) => " lost its standby" + (attempt.reason ? ": " + attempt.reason : "");

// What goes wrong in a cue that is live: the others of its devices may still move.
function faultWords(attempt) {
  const failed = failedOf(attempt);
  const fault = attempt.reason ? lostWords(attempt) : " fails", waits = waitedFor(attempt);
  const owes = attempt.stage === "given up" ? "; has not let go: device " : "; still waiting for device ";
  const rest = waits.length ? owes + devicesWords(waits) : "", isGiven = attempt.stage === "given";
  const did = failedWords(failed, isGiven, attempt.attempt) + (isUnknown(failed, isGiven) ? UNKNOWN : "");
  return cueWords(attempt) + fault + did + saysWords(failed, attempt.attempt) + rest;
}

// What may move by itself once what is missing is back: a cue that was given waits for it. Some of it may have moved
// before. A relay has the devices of the network alone; while the controller is missing nothing can be released.
const RELEASE = ". Release first what must not move";
const BACK = {
  relay: ["each of these that it reaches may move at once: ", RELEASE],
  silent: ["this may move at once: ", ". Nothing can be released before: hold what must not move at the machine"],
  device: ["this may move at once: ", RELEASE],
};

// `isOf`: whether the device is meant.
function owedWords(kind, isOf) {
  const given = view.live.filter((one) => one.stage === "given" && waitedFor(one).some(isOf));
  const each = given.map((one) => "device " + devicesWords(waitedFor(one).filter(isOf)) + " (cue " + one.cue + ")");
  const [moves, first] = BACK[kind];
  return each.length ? "; when it is back, " + moves + each.join(", ") + first : "";
}

// What went wrong in a cue that has ended.
function failureWords(told) {
  if (told.outcome === "cancelled") return cueWords(told) + lostWords(told)
    + failedWords(told.failed, false, told.attempt) + saysWords(told.failed, told.attempt);
  return endWords(told) + (isUnknown(told.failed, told.outcome === "failed") ? UNKNOWN : "");
}

function alarmWords(alarm) {
  const live = alarm.kind === "failed" && view.live.find((one) => one.attempt === alarm.of);
  if (live) return faultWords(live);
  const told = alarm.kind === "failed" && view.failed.find((one) => one.attempt === alarm.of);
  if (told) return failureWords(told);
  if (alarm.kind === "device")
    return "device " + called(alarm.of, deviceName(alarm.of)) + " is silent"
      + owedWords("device", (one) => one === alarm.of);
  if (alarm.kind === "clock" && cueOf(alarm.of) !== null)
    return "the clock was put back: the ten seconds of " + namedCue(cueOf(alarm.of)) + " are over";
  return alarm.words + (BACK[alarm.kind] ? owedWords(alarm.kind, () => true) : "");
}

// That a device stands still is said in this browser, and sent to nobody.
function stillButton(device) {
  const made = make("button");
  dress(made, false, "It stands still", "Device " + called(device, deviceName(device)) + " stands still");
  made.id = "still-" + device;
  made.type = "button";
  made.addEventListener("click", () => standsStill(device));
  return made;
}

// One press stands a cue by again whose ten seconds passed, as long as it is the next one.
function againButton(attempt) {
  const told = view.failed.find((one) => one.attempt === attempt);
  const isLate = told && told.outcome === "cancelled" && told.reason === "ten seconds passed";
  const lit = isLate && litOf("standby", (one) => one.cue === told.cue);
  return lit ? [button("again-" + attempt, "Stand by again", "Stand " + namedCue(told.cue) + " by again", lit)] : [];
}

function alarmLine(alarm, index) {
  const line = make("div", index ? "alarm" : "alarm loudest"), words = make("span", "", alarmWords(alarm));
  words.id = "alarm-" + index;
  line.append(words);
  const lit = alarm.kind === "failed" && litOf("seen", (one) => one.attempt === alarm.of);
  if (alarm.kind === "failed") line.append(...againButton(alarm.of));
  if (lit) {
    const seen = "The failure of " + (withCue("", alarm.of) || "a cue") + " was seen";
    line.append(button("seen-" + alarm.of, "Seen", seen, lit));
  }
  if (alarm.kind === "moving" && !isHeld()) line.append(stillButton(alarm.of));
  return line;
}

const DESK = { kind: "desk", of: 0, words: "The desk does not answer: nothing here is of now." };
// What failed is over; what may still move stands before it, and stays in sight also while the desk does not answer.
const isPast = (alarm) => ["failed", "device"].includes(alarm.kind);
const alarmsNow = () => isDark() ? [DESK, ...(view ? movingAlarms() : [])]
  : [...view.alarms.filter((one) => !isPast(one)), ...movingAlarms(), ...view.alarms.filter(isPast)];

function showAlarms() {
  const all = alarmsNow();
  at("alarms").hidden = !all.length;
  place("alarms", () => all.map(alarmLine), JSON.stringify([all.map((one) => [one.kind, one.of]), view && view.last,
    isHeld() || view.lit.filter((one) => ["seen", "standby"].includes(one.kind))]));
  all.forEach((alarm, index) => write("alarm-" + index, alarmWords(alarm)));
}

// How the last attempt ended; in short if an alarm says it whole.
function lastWords(last) {
  if (!last) return "no cue has ended yet";
  const isAlarm = view.alarms.some((alarm) => alarm.kind === "failed" && alarm.of === last.attempt);
  return isAlarm ? cueWords(last) + ": " + last.outcome : endWords(last);
}

function showEnds() {
  write("last", lastWords(view.last));
  at("last").className = view.last && view.last.outcome === "failed" ? "failed" : "";
  at("history").hidden = !view.past.length;
  place("past", () => view.past.map((told) => make("li", told.outcome === "failed" ? "bad" : "", endWords(told))),
    JSON.stringify([view.past, movingNow(), renamed, view.past.map((told) => saysWords(told.failed, told.attempt))]));
}

// Without the seconds, which change with each view.
const steady = (words) => words.replace(/:? [^:]*\d\.\d s.*$/, "");

// What a screen reader is told when it changes: what is wrong, and how far each cue is.
function showSpoken() {
  const cues = view.live.map((attempt) => "Cue " + attempt.cue + " " + stageWords(attempt));
  const wrong = alarmsNow().map((alarm) => alarmWords({ ...alarm, words: steady(alarm.words) }));
  const words = [...wrong, ...cues].join(". ") || "Nothing is stood by";
  if (words !== spoken) { spoken = words; at("spoken").textContent = words; }
}
