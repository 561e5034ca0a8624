"use strict";
// The page of a run, which stands above: all but its pictures, and its steps one by one. The page allows just this
// script, by its hash in page.html; tests/pictures finds where they differ.
const the = (id) => document.getElementById(id);
const run = JSON.parse(the("run").textContent);
const slider = the("slider");
const said = the("said");
const last = run.steps.length;

// Puts a new element into another one, with this text.
function add(place, tag, text) {
  const made = place.appendChild(document.createElement(tag));
  made.textContent = text;
  return made;
}

// Which writes a step sees, in words. Registers that nobody wrote before it are as at the start.
function seen({ verb, registers, sees }) {
  if (verb !== "read" && verb !== "scan") return "";
  const steps = `step${sees.length > 1 ? "s" : ""} ${sees.join(", ")}`;
  return [sees.length && steps, sees.length < registers.length && "the start"].filter(Boolean).join(" and ");
}

// Adds a row to the table: what a step does, what it sees, and what the registers hold then.
function addRow(number) {
  const step = run.steps[number - 1];
  const row = the("table").insertRow();
  if (step) row.dataset.step = number;
  add(row, "th", number).scope = "row";
  const told = step && [run.processes[step.process], step.act, seen(step)];
  for (const text of told || ["start", "", ""]) add(row, "td", text);
  for (const [register, value] of Object.entries(run.values[number])) {
    const before = run.values[Math.max(0, number - 1)][register];
    add(row, "td", value).classList.toggle("new", value !== before);
  }
}

for (const id of ["caption", "schedule"]) the(id).textContent = run[id];
slider.max = last;
for (const text of ["step", "process", "does", "sees", ...Object.values(run.registers)]) {
  add(the("heads"), "th", text).scope = "col";
}
run.values.forEach((_, number) => addRow(number));
run.ends.forEach((text, process) => add(the("ends"), "li", `${run.processes[process]}: ${text}`));
run.source.replace(/\n$/, "").split("\n").forEach((line, at) => {
  const isBroken = run.caption.endsWith(`(line ${at + 1})`);
  add(isBroken ? add(the("source"), "li", "") : the("source"), isBroken ? "mark" : "li", line || " ");
});
the("source").parentElement.hidden = !run.source;

const parts = [...document.querySelectorAll("[data-step]")];
// The last step that is full, and whether somebody steps: at first all steps are full.
let now = last;
let stepping = false;

// What a step does and sees.
function words(number) {
  const step = run.steps[number - 1];
  const sees = seen(step);
  const told = `Step ${number} of ${last}: ${run.processes[step.process]}: ${step.act}`;
  return told + (sees && `, as ${sees} left it`);
}

// Lights what a step sees: its line, and the writes at the other end; with none it puts all out.
function light(number) {
  const sees = number ? run.steps[number - 1].sees : [];
  for (const part of parts) {
    const step = Number(part.dataset.step);
    const isLine = part.matches(".sees, .head, .far") && step === number;
    part.classList.toggle("lit", isLine || (part.matches(".write") && sees.includes(step)));
  }
}

// Makes the steps up to this one full, and later ones pale.
function show(number, isStepping) {
  stepping = isStepping;
  now = Math.max(0, Math.min(last, number));
  slider.value = now;
  for (const part of parts) {
    part.classList.toggle("later", Number(part.dataset.step) > now);
    part.classList.toggle("here", stepping && Number(part.dataset.step) === now);
  }
  const all = last ? `All of ${last} steps. The arrow keys step through them.` : "There is no step.";
  said.textContent = !stepping ? all : now ? words(now) : `The start, before the first of ${last}`;
  slider.setAttribute("aria-valuetext", said.textContent);
  light(stepping ? now : 0);
  const column = [...document.querySelectorAll("rect.here")].find((it) => it.getClientRects().length);
  if (column) column.scrollIntoView({ block: "nearest", inline: "nearest" });
}

// One step on; behind the last one all begins anew.
const on = () => show(now === last ? 1 : now + 1, true);
const back = () => show(now - 1, true);
const keys = { ArrowRight: on, ArrowLeft: back, Home: () => show(0, true), End: () => show(last, false) };

document.addEventListener("keydown", (event) => {
  if (!keys[event.key] || event.ctrlKey || event.altKey || event.metaKey) return;
  // Where there is more to the side than is seen, the keys move that.
  if (event.target.scrollWidth > event.target.clientWidth && event.target.matches(".scroll")) return;
  event.preventDefault();
  keys[event.key]();
});
slider.addEventListener("input", () => show(Number(slider.value), true));
the("on").addEventListener("click", on);
the("back").addEventListener("click", back);
for (const part of parts) {
  const number = Number(part.dataset.step);
  part.addEventListener("click", () => show(number, true));
  part.addEventListener("mouseenter", () => light(number));
  part.addEventListener("mouseleave", () => light(stepping ? now : 0));
}

// Copies the schedule; where a browser does not allow that, it is marked, to be copied by hand.
the("copy").addEventListener("click", async (event) => {
  const text = the("schedule");
  try {
    await navigator.clipboard.writeText(text.textContent);
    event.target.textContent = "Copied";
  } catch (error) {
    window.getSelection().selectAllChildren(text);
    event.target.textContent = "Marked: copy it";
  }
});
show(last, false);
