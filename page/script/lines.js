// The line above the buttons. It tells of now: it goes as soon as its reason does, and whenever something new became
// of the last press.

"use strict";
const NOTED = 6000, TAP = 1000, BRIEF = 1000, PASSED = 3000, NO_PRESS = { press: "", at: -Infinity };
let note = { draw: () => ["", ""], until: 0, said: "", holds: () => true }, lastGo = NO_PRESS, lastStandby = NO_PRESS;

// The last press that was sent, and what became of it, as far as the line goes.
const saidNow = () => view && view.said ? view.said.ask + " " + view.said.kind : "";

// Says it for so long, as long as its reason holds and nothing new became of the last press.
function say(words, kind, millis, holds) {
  note = { draw: () => [words, kind], until: now() + millis, said: saidNow(), holds: holds || (() => true) };
  showWords();
}

// Two reasons are the same if they differ in numbers alone, as in how long something has lasted.
const isSame = (why, other) => why.replace(/[0-9.]+/g, "") === other.replace(/[0-9.]+/g, "");

// Why a button is dark that was pressed, in the words of now, as long as it is that reason. A reason that is over
// within a second was hardly seen: so the line then says that the press did nothing.
function sayDark(id) {
  const name = id.toUpperCase(), why = whyDark(id), begun = now();
  let ended = null;
  const isSo = () => !keyOf(id) && isSame(whyDark(id), why);
  const draw = () => [isSo() ? name + " is not lit: " + whyDark(id)
    : name + " was dark when it was pressed, and did nothing: look, and press again", "refused"];
  const holds = () => {
    if (isSo()) return true;
    if (ended === null) ended = now();
    return ended - begun < BRIEF && now() - ended < PASSED;
  };
  note = { draw, until: now() + NOTED, said: saidNow(), holds };
  showWords();
}

// What became of a press that was sent from here, if it was not refused.
function kindOf(sent) {
  const kind = view && view.said && view.said.press === sent.press ? view.said.kind : "open";
  return ["open", "said", "made"].includes(kind) ? kind : null;
}

const goKind = () => kindOf(lastGo);

// A second tap within a second of a GO is the same press: a foot switch bounces. It gives no cue, and refuses none.
const isTap = () => now() - lastGo.at < TAP && goKind() !== null;

// The same of a STANDBY, unless it is that of another cue by now: it stands by what the first did, and says no more.
const isBounce = () => now() - lastStandby.at < TAP && kindOf(lastStandby) !== null
  && (!keyOf("standby") || keyOf("standby").press === lastStandby.press);

// That the tap did not give the cue either that was chosen here since the GO.
function otherWords() {
  const other = isOwn() && !lastGo.press.endsWith(" " + view.chosen) ? chosenAttempt() : undefined;
  return other ? ". Cue " + other.cue + " was not given: press GO again" : "";
}

function tapWords() {
  const isMade = goKind() === "made";
  const cue = "cue " + called(lastGo.press.split(" ")[1], cueName(lastGo.press.split(" ")[1]));
  return [(isMade ? "GO was given for " : "GO is pressed for ") + cue + "; the second tap did nothing" + otherWords(),
    isMade ? "made" : "open"];
}

function sayTap() {
  note = { draw: tapWords, until: now() + NOTED, said: null, holds: () => goKind() !== null };
  showWords();
}

// A press that was not sent.
function notGiven(press, why) {
  if (press === lastGo.press) lastGo = NO_PRESS;
  if (press === lastStandby.press) lastStandby = NO_PRESS;
  expected = null;
  say(pressWords(press) + ": " + why, "refused", NOTED);
}

function noteNow() {
  const isNew = note.said !== null && note.said !== saidNow();
  return now() < note.until && !isNew && note.holds() ? note.draw() : null;
}

// The press before the last one, while nobody knew what became of it: its end is told, too, whatever was pressed then.
const opened = new Set();
let lastClosed = { ask: 0, until: 0 };

function followBefore() {
  const { before, said } = view;
  if (said && said.kind === "open") opened.add(said.ask);
  else if (said) opened.delete(said.ask);
  if (before && before.kind !== "open" && opened.delete(before.ask))
    lastClosed = { ask: before.ask, until: now() + NOTED };
}

function beforeWords() {
  const before = view.before;
  const isTold = before && (before.kind === "open" || (before.ask === lastClosed.ask && now() < lastClosed.until));
  return isTold ? "; before it, " + becameWords(before, before.words) : "";
}

// A press that was sent, and what became of it, in these words.
const becameWords = ({ press, words: told }, words) =>
  (words === told && told === "made" && doneWords(press)) || pressWords(press) + ": " + words;

// What became of the last press. That a STANDBY was made is said while its cue is seen to stand by.
function pressLine(said) {
  const isUnseen = said.kind === "made" && said.press.startsWith("standby ")
    && (isDark() || view.alarms.some((alarm) => alarm.kind === "old"));
  const words = isUnseen ? "it was made; whether the cue still stands by cannot be seen" : said.words;
  return [becameWords(said, words) + beforeWords(), isUnseen ? "over" : said.kind];
}

function showWords() {
  const said = view && view.said, [words, kind] = noteNow() || (said ? pressLine(said) : [KEYS, ""]);
  at("words").className = kind;
  write("words", words);
}
