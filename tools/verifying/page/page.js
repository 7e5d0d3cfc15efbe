// The page: the source at the left, and at the right the run that is chosen, step by step. What is shown is told by the place in the
// address, as #fill-7: the unit, where it has several runs a slash and which, and the step.
const about = JSON.parse(document.getElementById("data").textContent);
const WORDS = new Set(("field predicate method returns requires ensures invariant var new if elseif else while inhale exhale assert assume fold "
  + "unfold unfolding in acc old null true false write none wildcard Int Bool Ref Perm").split(" "));
const MARKS = { verified: "✓", fails: "✗", undecided: "?" };
const NOTHING = { variables: [], places: [], instances: [], line: 0 };
const runs = about.units.flatMap((unit) => unit.runs.map((run, number) => ({ ...run, unit: unit.name, number: number + 1, of: unit.runs.length })));
const folded = new Set();
let run = 0, step = 0;

function by(id) { return document.getElementById(id); }

function make(name, className, text) {
  const it = document.createElement(name);
  if (className) it.className = className;
  if (text !== undefined) it.textContent = text;
  return it;
}

function address(number, its) {
  const one = runs[number];
  return "#" + encodeURIComponent(one.unit) + (one.of > 1 && one.number > 1 ? "/" + one.number : "") + "-" + (its + 1);
}

function link(number, its, text) {
  const it = make("a", "", text);
  it.href = address(number, its);
  return it;
}

// ---- the source

function codeOf(line) {
  const code = make("span", "code"), comment = line.indexOf("//");
  for (const it of line.split(/([A-Za-z_$][\w$']*)/)) code.append(WORDS.has(it) ? make("b", "", it) : it);
  if (comment >= 0) code.replaceChildren(line);
  return code;
}

function drawSource() {
  const file = by("file"), unitOf = [];
  for (const unit of about.units) for (let line = unit.first; line <= unit.last; line++) unitOf[line] = unit;
  about.lines.forEach((line, at) => {
    const unit = unitOf[at + 1], row = make("div", "row" + (unit ? " " + unit.verdict : ""));
    row.id = "L" + (at + 1);
    row.append(make("span", "number", String(at + 1)), codeOf(line), make("span", "steps"));
    if (unit && unit.first === at + 1) row.append(make("span", "word", MARKS[unit.verdict] + " " + unit.word));
    file.append(row);
  });
}

function markPath() {
  const at = new Map(), steps = runs[run].steps;
  steps.forEach((it, number) => at.set(it.line, [...(at.get(it.line) || []), number]));
  document.querySelectorAll(".row").forEach((row) => {
    const line = Number(row.id.slice(1)), here = at.get(line) || [];
    row.classList.toggle("path", here.length > 0);
    row.classList.toggle("here", steps[step].line === line);
    row.querySelector(".steps").replaceChildren(...here.flatMap((it, n) => [n ? " " : "", link(run, it, String(it + 1))]));
    if (steps[step].line === line) reveal(row);
  });
}

function reveal(row) {
  const file = by("file"), top = row.offsetTop - file.offsetTop;
  if (top < file.scrollTop || top + row.offsetHeight > file.scrollTop + file.clientHeight) file.scrollTop = Math.max(0, top - file.clientHeight / 2);
}

// ---- the step

function drawVariables(state, before) {
  const was = new Map(before.variables), table = make("table");
  for (const [name, value] of state.variables) {
    const isNew = was.get(name) !== value, line = make("tr", isNew ? "new" : ""), cell = make("td", "", value);
    const head = make("th", "", name);
    head.scope = "row";
    if (isNew && was.has(name)) cell.append(make("span", "was", "  was " + was.get(name)));
    line.append(head, cell);
    table.append(line);
  }
  by("variables").replaceChildren(state.variables.length ? table : make("p", "none", "None is visible."));
}

function stateWords(state) {
  const told = (part) => part.content ? part.name + " {" + part.content.map(told).join(", ") + "}" : part.value === undefined ? part.name : part.name + " " + part.value;
  return [...state.variables.map(([name, value]) => name + " = " + value),
    ...state.places.map((it) => it.object + "." + it.field + " = " + it.value + ", held: " + spoken(it.held)),
    ...state.instances.map((it) => it.name + (it.content.length ? " {" + it.content.map(told).join(", ") + "}" : "") + ", held: " + spoken(it.held))];
}

function drawStep() {
  const steps = runs[run].steps, state = steps[step], before = step > 0 ? steps[step - 1] : state;
  const box = by("step");
  box.classList.toggle("failing", step === steps.length - 1);
  box.replaceChildren(make("strong", "", state.line ? "Line " + state.line : "Begin"));
  if (state.source) box.append(make("span", "source", state.source));
  box.append(make("div", "", state.text || state.changes.join(", ")));
  drawVariables(state, before);
  drawHeap(by("heap"), state, before, folded);
  by("words").querySelector("ul").replaceChildren(...stateWords(state).map((it) => make("li", "state", it)));
  by("slider").value = String(step + 1);
  by("slider").setAttribute("aria-valuetext", "step " + (step + 1) + " of " + steps.length);
  by("back").disabled = step === 0;
  by("forth").disabled = step === steps.length - 1;
  by("link").textContent = (step + 1) + " of " + steps.length;
  by("link").href = address(run, step);
  [...by("steps").children].forEach((it, n) => n === step ? it.setAttribute("aria-current", "step") : it.removeAttribute("aria-current"));
  markPath();
}

function drawRun() {
  const one = runs[run];
  by("runs").value = String(run);
  by("message").textContent = one.line + ":" + one.column + ": " + one.message;
  by("needs").replaceChildren(...one.needs.map((it) => make("li", "", it)));
  by("slider").max = String(one.steps.length);
  by("runfile").querySelector("pre").textContent = one.file || "";
  by("runfile").hidden = !one.file;
  by("steps").replaceChildren(...one.steps.map((it, number) => {
    const item = make("li"), words = (it.line ? it.line + ": " : "") + (it.source || it.text || "the begin");
    item.append(link(run, number, words), it.source && it.text ? "  " + it.text : "");
    item.append(...stateWords(it).map((word) => make("div", "state", word)));
    return item;
  }));
  drawStep();
}

function show(number, its) {
  const isOther = number !== run;
  run = number;
  step = Math.min(Math.max(0, its), runs[run].steps.length - 1);
  if (isOther) { folded.clear(); drawRun(); } else drawStep();
  if (location.hash !== address(run, step)) history.replaceState(null, "", address(run, step));
}

// The run and the step that the address names; a unit alone is the end of its first run.
function follow() {
  const found = /^#([^/-]+)(?:\/(\d+))?(?:-(\d+))?$/.exec(location.hash);
  let unit = "";
  try { unit = found ? decodeURIComponent(found[1]) : ""; } catch (fault) { unit = ""; }
  const number = runs.findIndex((it) => it.unit === unit && it.number === Number(found[2] || 1));
  if (number < 0) return false;
  show(number, found[3] ? Number(found[3]) - 1 : runs[number].steps.length - 1);
  return true;
}

function keys(event) {
  if (event.altKey || event.ctrlKey || event.metaKey || /^(INPUT|SELECT)$/.test(event.target.tagName)) return;
  const to = { ArrowLeft: step - 1, ArrowRight: step + 1, Home: 0, End: runs[run].steps.length - 1 }[event.key];
  if (to === undefined) return;
  event.preventDefault();
  show(run, to);
}

function begin() {
  const count = (verdict) => about.units.filter((it) => it.verdict === verdict).length;
  by("path").textContent = about.path;
  by("sum").textContent = about.units.length ? [["verified", "verified"], ["fails", "failing"], ["undecided", "undecided"]]
    .filter(([verdict]) => count(verdict)).map(([verdict, word]) => MARKS[verdict] + " " + count(verdict) + " " + word).join(", ") : "";
  by("notices").replaceChildren(...about.notices.map((it) => make("li", "", it)));
  drawSource();
  document.querySelector("main").classList.toggle("alone", runs.length === 0);
  if (runs.length === 0) return;
  by("run").hidden = false;
  by("runs").replaceChildren(...runs.map((it, number) => {
    const option = make("option", "", it.unit + " " + it.line + ":" + it.column + "  " + it.message);
    option.value = String(number);
    return option;
  }));
  by("runs").addEventListener("change", () => show(Number(by("runs").value), runs[Number(by("runs").value)].steps.length - 1));
  by("slider").addEventListener("input", () => show(run, Number(by("slider").value) - 1));
  by("back").addEventListener("click", () => show(run, step - 1));
  by("forth").addEventListener("click", () => show(run, step + 1));
  document.addEventListener("keydown", keys);
  window.addEventListener("hashchange", follow);
  drawRun();
  if (!follow()) show(0, runs[0].steps.length - 1);
}

begin();
