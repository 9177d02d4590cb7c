// What the page does: it asks for the newest view ten times in a second, and reports which button was pressed in
// which view, letter by letter as the view has it.

"use strict";
const POLL = 100, LOCKED = 423, CLOSED = 429, OPEN_FOR = 12000;
let reading = null;
const token = document.querySelector("meta[name=cuedesk-token]").content;
let namesText = "";

// The names of a view; if they are those of before, nothing that shows them is made anew.
function takeNames(told) {
  const text = JSON.stringify(told);
  if (text === namesText) return;
  namesText = text;
  renamed += 1;
  names = { cues: new Map(told.cues.map((one) => [one.cue, one])),
    devices: new Map(told.devices.map((one) => [one.device, one.name])) };
}

// Loads the page again, since the desk was started again. It does not know of a press that was open: this window does.
const OPEN = "cuedesk-open";
function loadAgain() {
  try {
    if (view && view.said && view.said.kind === "open") sessionStorage.setItem(OPEN, view.said.press);
  } catch (error) { /* nothing is kept */ }
  location.reload();
}

// The view shows what became of the press: its cue stands by, is given or given up, or has ended.
function isPressShown(press) {
  const [verb, cue, number] = press.split(" ");
  if (!view || isDark()) return false;
  if (verb === "standby") return view.live.some((one) => one.cue === cue);
  if (verb === "goto") return view.next.cue === cue;
  if (verb === "release")
    return !view.live.some((one) => one.attempt === Number(cue) && waitedFor(one).includes(Number(number)));
  return !view.live.some((one) => one.attempt === Number(number) && isOpen(one));
}

function recallOpen() {
  try {
    const press = sessionStorage.getItem(OPEN);
    sessionStorage.removeItem(OPEN);
    if (press) say(pressWords(press) + " was open when the desk was started again: the store will show whether it is " +
      "carried out", "open", OPEN_FOR, () => !isPressShown(press));
  } catch (error) { /* nothing was kept */ }
}

// What this window knew before it was loaded.
function recallAll() {
  recallOwn();
  recallMoving();
  recallOpen();
}

// A view that came, and when it was asked: nothing that it shows is younger. An older one than that which is drawn is
// never drawn, and one of another run loads the page again.
function take(told, asked) {
  if (run !== null && told.run !== run) { loadAgain(); return; }
  const isFirst = run === null;
  run = told.run;
  manner = { locked: told.locked, readonly: told.readonly, told: told.told, rehearsed: told.rehearsed,
    marks: told.marks };
  if (isFirst) recallAll();
  if (view && told.view.number <= view.number) return;
  view = told.view;
  heard = asked;
  followChoice();
  followMoving();
  followWays();
  followGo();
  followBefore();
  followQuestion();
  takeNames(told.names);
  if (now() > sure.until) sure = { press: "", until: 0 };
  draw();
}

// What an answer says that carries nothing out.
async function refused(press, reply) {
  if (reply.status === 403) { loadAgain(); return; }
  const told = await reply.json();
  notGiven(press, told.words);
  if (reply.status === LOCKED) askWord(press, told.words + ". " + pressWords(press) + " wants it:");
  if (reply.status === CLOSED) forget();
}

// What the desk answered to a press: it was sent, it was the second tap of a GO, or it was not sent.
function unsent(press, told) {
  const why = told.view.unsent;
  if (why && why.kind === "again") { sayTap(); return; }
  if (why) { notGiven(press, why.words); return; }
  ownPress(press, told);
  followChoice();
  if (note.draw !== tapWords) say("", "", 0);
  showLive();
}

// Reports a press of the view that is drawn. What became of it stands in the views that follow.
async function send(press) {
  if (isDark()) { say(pressWords(press) + ": not sent: the desk does not answer", "refused", NOTED); return; }
  if (asksFirst(press)) return;
  const text = wordFor(press);
  if (wantsWord(press) && text === undefined) { askWord(press); return; }
  say(pressWords(press) + " \u2026", "open", NOTED);
  if (press.startsWith("go ")) lastGo = { press, at: now() };
  lastStandby = press.startsWith("standby ") ? { press, at: now() } : NO_PRESS;
  expectOwn(press);
  try {
    const asked = now(), headers = { "Cuedesk-Token": token, ...(text === undefined ? {} : { "Cuedesk-Word": text }) };
    const reply = await fetch("/command", { method: "POST", headers, body: view.number + " " + press });
    if (!reply.ok) { await refused(press, reply); return; }
    const told = await reply.json();
    take(told, asked);
    unsent(press, told);
  } catch (error) {
    notGiven(press, "the desk does not answer; look at what is shown before you press again");
  }
}

// A key or a great button: the lit one of the view that is drawn.
function press(id) {
  if (id === "go" && isTap()) { sayTap(); return; }
  if (id === "standby" && isBounce()) return;
  const lit = keyOf(id);
  if (lit) send(lit.press);
  else sayDark(id);
}

// A space that goes into a field gives no GO, and says so while a cue waits for one.
function fieldKey(event) {
  if (event.key === " " && !event.repeat && view && view.live.some(isOpen))
    say("The space went into the field, and gave no GO: press Esc, then the key", "refused", NOTED,
      () => document.activeElement instanceof HTMLInputElement);
}

for (const id of ["find", "lock-word"]) at(id).addEventListener("keydown", fieldKey);

// The same of a space that presses another button, since that has the focus.
function otherKey() {
  const other = document.activeElement;
  if (other.id !== "go" && view && view.live.some((attempt) => attempt.stage === "ready"))
    say("The space pressed the button that has the focus, and gave no GO", "refused", NOTED,
      () => document.activeElement === at(other.id));
}

// The key R: the one device that keeps GO waiting is released by a second press within three seconds.
function pressRelease() {
  const { lit, words, why } = lastWaiter();
  if (!lit) {
    say("R releases no device: " + why, "refused", NOTED, () => lastWaiter().why === why);
    return;
  }
  if (!(sure.press === lit.press && now() < sure.until)) say("Press R again to release " + words, "open", SURE);
  pressTwice(lit.press);
}

for (const id of ["standby", "go", "cancel"]) {
  at(id).addEventListener("click", (event) => { if (event.detail > 0) event.currentTarget.blur(); press(id); });
}

// Keys: S, space, Esc and R. On a control that has the focus, the space bar is that control's; a field keeps its keys.
document.addEventListener("keydown", (event) => {
  if (event.repeat || event.ctrlKey || event.altKey || event.metaKey || manner.readonly) return;
  if (event.target instanceof HTMLInputElement) return;
  const id = { s: "standby", S: "standby", " ": "go", Escape: "cancel", r: "release", R: "release" }[event.key];
  if (event.key === " " && document.activeElement instanceof HTMLButtonElement) { otherKey(); return; }
  if (!id) return;
  event.preventDefault();
  if (id === "release") pressRelease();
  else press(id);
});

// Asks for the newest view. If nobody listens the page grows dark, and says so.
async function read() {
  const stop = new AbortController(), asked = now();
  reading = { stop, asked };
  try {
    const reply = await fetch("/board.json", { cache: "no-store", signal: stop.signal });
    missed = 0;
    if (reply.ok) take(await reply.json(), asked);
  } catch (error) { missed += 1; }
  reading = null;
}

function readOn() {
  if (reading === null) read();
  else if (now() - reading.asked > DARK) reading.stop.abort();
}

// What changes by time alone.
function pass() {
  if (view && (isDark() !== wasDark || (sure.press && now() > sure.until))) {
    if (now() > sure.until) sure = { press: "", until: 0 };
    draw();
  } else showLit();
  if (word.text !== "" && !hasWord()) showManner();
}

function beat() {
  readOn();
  pass();
}

// Ten beats a second, also while the page is out of sight: there a browser slows a page's own timers down to one a
// second and to one a minute, and an alarm would be as late. Those of a worker it lets be.
function keepBeat() {
  const byPage = () => setInterval(beat, POLL);
  try {
    const text = new Blob(["setInterval(() => postMessage(0), " + POLL + ")"], { type: "text/javascript" });
    const worker = new Worker(URL.createObjectURL(text));
    worker.addEventListener("message", beat);
    worker.addEventListener("error", byPage, { once: true });
  } catch (error) { byPage(); }
}

beat();
keepBeat();
