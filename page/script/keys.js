// The three great buttons, and why one of them is dark.

"use strict";
const KEYS = "S is STANDBY, space is GO, Esc is CANCEL, R twice releases who GO waits for.";

// The button that is lit, if it may be pressed in this window: GO only of what was chosen here.
const keyOf = (id) => id !== "go" || isOwn() ? litOf(id, () => true) : undefined;

function showKey(id, dark) {
  const lit = keyOf(id);
  if (at(id).disabled === !!lit) at(id).disabled = !lit;
  write(id + "-cue", lit ? "cue " + lit.cue + (id === "standby" ? withWords(view.next.with) : "") : dark);
}

const chosenAttempt = () => view.live.find((attempt) => attempt.attempt === view.chosen && isOpen(attempt));

// What keeps each button dark: the desk, the controller or the store does not answer.
const loudest = () =>
  isDark() ? DESK : view.alarms.find((alarm) => ["silent", "other", "old"].includes(alarm.kind));

// A press that is open: no other one is sent meanwhile. Else what is served and what was read differ for a moment.
const openWords = () => view.said && view.said.kind === "open" ? pressWords(view.said.press) + " is open still"
  : "the desk is waiting until serve and the store agree";

// What STANDBY of the next cue has to wait for.
function whyNoStandby() {
  const live = view.live.find((one) => one.cue === view.next.cue), waits = live ? waitedFor(live) : [];
  if (!live) return view.next.why || openWords();
  return "cue " + live.cue + " is " + stageWords(live)
    + (waits.length ? "; it waits for device " + devicesWords(waits) : "");
}

// That no attempt is chosen: as long as a GO is open it is not known which is to be chosen next.
function notChosen() {
  const going = view.live.find(isGoing);
  return going ? "GO of cue " + going.cue + " is open still" : "no cue is chosen: press Choose for GO on its card";
}

// What GO or CANCEL has no attempt for; null if one is chosen.
function whyNone(id) {
  if (!view.live.some(isOpen)) return id === "cancel" && view.live.length ? "no cue prepares" : "no cue is stood by";
  return chosenAttempt() ? null : notChosen();
}

// For whom GO waits, or what it lacks.
function whyNoGo(chosen) {
  if (!isOwn()) return "cue " + chosen.cue + " was chosen in another window: press Choose for GO on its card";
  if (chosen.stage === "over") return "the ten seconds of cue " + chosen.cue + " are over";
  const waits = waitedFor(chosen);
  return waits.length ? "cue " + chosen.cue + " waits for device " + devicesWords(waits) : openWords();
}

// Why this button is dark: a reason of its own.
function whyDark(id) {
  const loud = loudest();
  if (loud) return loud.words;
  if (id === "standby") return whyNoStandby();
  return whyNone(id) || (id === "go" ? whyNoGo(chosenAttempt()) : openWords());
}

// The release of the one device that keeps GO of the chosen cue waiting, and what it does; else why there is none.
function lastWaiter() {
  const chosen = isDark() ? undefined : chosenAttempt();
  if (!chosen) {
    const isWaited = !isDark() && view.live.some((one) => waitedFor(one).length);
    return { why: isWaited ? "no cue is chosen: press Release beside the device" : whyDark("go") };
  }
  const waits = chosen.devices.filter((one) => one.answer === "waiting"), [one] = waits;
  if (!waits.length) return { why: "cue " + chosen.cue + " waits for no device" };
  if (waits.length > 1)
    return { why: "cue " + chosen.cue + " waits for " + waits.length + " devices: release each by its button" };
  const lit = litOf("release", (some) => some.attempt === chosen.attempt && some.device === one.device);
  const then = one.optional ? "cue " + chosen.cue + " goes without it" : "cue " + chosen.cue + " is cancelled by it";
  return lit ? { lit, words: "device " + called(one.device, deviceName(one.device)) + " (" +
    (one.optional ? "optional" : "required") + "): " + then } : { why: openWords() };
}

// What stands on GO while it is dark: for whom it waits.
function goWords() {
  const chosen = isDark() ? undefined : chosenAttempt(), waits = chosen ? waitedFor(chosen) : [];
  if (chosen && !isOwn()) return "chosen in another window";
  if (chosen && chosen.stage === "over") return "its ten seconds are over";
  if (!waits.length) return "not lit";
  return "waits for " + (waits.length > 2 ? waits.length + " devices" : devicesWords(waits));
}

function showKeys() {
  showQuestion(keyOf("standby"));
  showKey("standby", view && view.next.cue !== null ? "cue " + view.next.cue + withWords(view.next.with) : "no cue");
  showKey("go", goWords());
  showKey("cancel", "");
}

// The line about the show file, and in what manner the page is shown.
function showManner() {
  const { told, readonly, locked, rehearsed } = manner;
  at("rehearsal").hidden = !rehearsed;
  document.body.classList.toggle("rehearsed", rehearsed);
  document.title = (rehearsed ? "REHEARSAL \u2013 " : "") + "cuedesk";
  at("told").hidden = told === null;
  write("told", told === null ? "" : told);
  document.body.classList.toggle("readonly", readonly);
  at("mode").hidden = !readonly;
  showLock(locked && !readonly);
}
