// The search of the handbook: the sections that have each word that was typed, those with it in their title first.
"use strict";
const MOST = 20, AROUND = 60;
const field = document.getElementById("search"), found = document.getElementById("found");

// A piece of the section around the words as they were typed, else around the longest of them.
function pieceOf(text, words) {
  const small = text.toLowerCase(), whole = small.indexOf(words.join(" "));
  const longest = [...words].sort((one, other) => other.length - one.length)[0];
  const from = Math.max(0, (whole < 0 ? small.indexOf(longest) : whole) - AROUND);
  return (from ? ".. " : "") + text.slice(from, from + 3 * AROUND) + " ..";
}

// How well a section fits: words in its title first, then the words as they were typed.
function rank(section, words) {
  const title = section.title.toLowerCase(), typed = section.text.toLowerCase().includes(words.join(" "));
  return 2 * words.filter((word) => title.includes(word)).length + Number(typed);
}

function lineOf(section, words) {
  const line = document.createElement("li"), link = document.createElement("a"), piece = document.createElement("small");
  link.href = section.page + "#" + section.id;
  link.textContent = section.title;
  piece.textContent = pieceOf(section.text, words);
  line.append(link, piece);
  return line;
}

function search() {
  const words = field.value.toLowerCase().split(/\s+/).filter((word) => word);
  const has = (section, word) => (section.title + " " + section.text).toLowerCase().includes(word);
  const all = words.length ? SECTIONS.filter((section) => words.every((word) => has(section, word))) : [];
  all.sort((one, other) => rank(other, words) - rank(one, words));
  found.replaceChildren(...all.slice(0, MOST).map((section) => lineOf(section, words)));
  if (words.length && !all.length) found.append(Object.assign(document.createElement("li"), { textContent: "nothing" }));
}

field.addEventListener("input", search);
field.form.addEventListener("submit", (event) => {
  event.preventDefault();
  const first = found.querySelector("a");
  if (first) first.click();
});
