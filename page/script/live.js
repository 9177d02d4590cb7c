// How the page draws the live attempts, each a card with its devices.

"use strict";
const CLASSES = { waiting: "waiting", ready: "is-ready", done: "done", failed: "failed-device", excused: "excused" };
const SIGNS = { waiting: "\u2026", ready: "\u2713", done: "\u25a0", failed: "\u2715", excused: "\u2013" };
const STAGES = { ready: "ready, GO can be given", held: "held, GO is dark", preparing: "preparing",
  over: "its ten seconds are over", unseen: "was preparing when this was read", given: "given",
  "given up": "given up" };
// A GO of the attempt is one of the last two presses, and this became of it.
const isGo = (attempt, kind) => [view.said, view.before].some((press) => press && press.kind === kind
  && press.press === "go " + attempt.cue + " " + attempt.attempt);
// A GO that is open may be given although none can be pressed.
const isGoing = (attempt) => isGo(attempt, "open");
// Nobody has the port: what was sent there is carried out no more.
const isAlone = () => view.alarms.some((alarm) => alarm.words.startsWith("nobody listens"));
const heldWords = (attempt) => isGoing(attempt) && !isAlone() ? "held, GO may still be given"
  : isGo(attempt, "said") ? "held, serve says that GO was given" : STAGES.held;
const unseenWords = (attempt) => STAGES.unseen + (isGoing(attempt) ? "; a GO is open" : "");
// While the desk does not answer nobody knows how far a cue has come that prepared.
const PREPARES = ["ready", "held", "preparing", "over"];
const stageNow = (attempt) => isDark() && PREPARES.includes(attempt.stage) ? "unseen" : attempt.stage;
const stageWords = (attempt) => stageNow(attempt) === "held" ? heldWords(attempt)
  : stageNow(attempt) === "ready" && isGoing(attempt) ? "ready, GO is pressed"
  : stageNow(attempt) === "unseen" ? unseenWords(attempt)
  : STAGES[attempt.stage] + (attempt.reason ? ": " + attempt.reason : "");
const isOpen = (attempt) => PREPARES.includes(stageNow(attempt));
const waitedFor = (attempt) => attempt.devices.filter((one) => one.answer === "waiting").map((one) => one.device);
const contactOf = (device) => view.network.find((one) => one.device === device);

function deviceRow(attempt, device) {
  const row = make("tr", device.answer === "waiting" ? "is-waiting" : ""), id = attempt.attempt + "-" + device.device;
  const answer = make("td", "answer " + (CLASSES[device.answer] || "let-go"));
  answer.textContent = (SIGNS[device.answer] || "\u00b7") + " " + device.answer;
  const name = called(device.device, deviceName(device.device)), last = make("td", "whole");
  const lit = litOf("release", (one) => one.attempt === attempt.attempt && one.device === device.device);
  if (device.answer === "waiting") last.append(button("release-" + id, "Release", "Release device " + name, lit, true));
  const named = make("td", "", deviceName(device.device)), needed = device.optional ? "optional" : "required";
  if (device.optional) named.append(make("span", "beside", " optional"));
  row.append(make("td", "number whole", device.device), named, answer, make("td", "whole needed", needed));
  if (view.network.length) {
    const cell = make("td");
    cell.id = "heard-" + id;
    row.append(cell);
  }
  row.append(last);
  return row;
}

function deviceTable(attempt) {
  const table = make("table"), head = make("tr");
  for (const title of ["Device", "Name", "Answer", "Needed", ...(view.network.length ? ["Heard"] : []), ""]) {
    const cell = make("th", title.toLowerCase(), title);
    cell.scope = "col";
    head.append(cell);
  }
  table.setAttribute("aria-label", "Devices of cue " + attempt.cue);
  const first = attempt.devices.filter((one) => one.answer === "waiting" || one.answer === "failed");
  const others = attempt.devices.filter((one) => !first.includes(one));
  table.append(head, ...[...first, ...others].map((device) => deviceRow(attempt, device)));
  return table;
}

function secondsBar(attempt) {
  const left = make("div", "left"), bar = make("div", "progress"), words = make("b");
  bar.id = "bar-" + attempt.attempt;
  words.id = "left-" + attempt.attempt;
  bar.setAttribute("role", "progressbar");
  bar.setAttribute("aria-label", "Seconds left for cue " + attempt.cue);
  bar.setAttribute("aria-valuemin", 0);
  bar.setAttribute("aria-valuemax", 10);
  bar.append(make("i"));
  left.append(bar, words);
  return left;
}

// How long ago the cue was given: it is seen since then, and may be given a little longer.
function sinceLine(attempt) {
  const line = make("p", "since"), words = make("b");
  words.id = "since-" + attempt.attempt;
  line.append(words, " since GO, at least. ", make("span", "", "Nothing here stops it: its own emergency stop does."));
  return line;
}

// Which attempt GO and CANCEL are for stands in words.
function choice(attempt) {
  const isChosen = view.chosen === attempt.attempt;
  if (isGoing(attempt)) return make("p", "is-chosen", "\u25c6 GO is pressed, and open");
  if (isChosen && (isOwn() || manner.readonly)) return make("p", "is-chosen", "\u25c6 CHOSEN for GO and CANCEL");
  const lit = litOf("choose", (one) => one.attempt === attempt.attempt);
  if (isChosen && !lit) return make("p", "is-chosen", "\u25c6 chosen in another window");
  return button("choose-" + attempt.attempt, "Choose for GO", "Choose cue " + attempt.cue + " for GO and CANCEL", lit);
}

function titleOf(attempt) {
  const title = make("h3"), named = make("span"), stage = make("span", "stage", stageWords(attempt));
  named.append(make("span", "number", attempt.cue), " " + cueName(attempt.cue));
  title.append(named, ...marks(attempt.cue), stage);
  return title;
}

function attemptCard(attempt) {
  const fails = attempt.devices.some((device) => device.answer === "failed");
  const card = make("article", "attempt " + (stageNow(attempt) === "ready" ? "ready" : fails ? "failed" : ""));
  if (view.chosen === attempt.attempt) card.classList.add("chosen");
  card.setAttribute("aria-label", "Cue " + attempt.cue + ", " + stageWords(attempt));
  const waits = waitedFor(attempt);
  card.append(titleOf(attempt));
  if (attempt.given !== null) card.append(sinceLine(attempt));
  if (waits.length) card.append(make("p", "waits", "\u2026 waiting for " + devicesWords(waits)));
  card.append(...saysLines(attempt));
  if (isOpen(attempt)) card.append(secondsBar(attempt), choice(attempt));
  card.append(deviceTable(attempt));
  return card;
}

function liveCards() {
  if (!view.live.length) return [make("p", "empty", "Nothing is stood by.")];
  const first = view.live.filter((attempt) => attempt.attempt === view.chosen);
  return [...first, ...view.live.filter((attempt) => attempt.attempt !== view.chosen)].map(attemptCard);
}

function showLive() {
  const live = view.live.map((attempt) => ({ ...attempt, left: 0, given: attempt.given !== null }));
  const lit = [isHeld(), view.lit, sure.press, renamed, own, view.live.map(stageWords), view.live.map(isGoing),
    view.live.map((one) => saysWords(failedOf(one), one.attempt))];
  place("live", liveCards, JSON.stringify([live, view.chosen, view.network.length > 0, lit]));
}
