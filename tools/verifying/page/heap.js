"use strict";
// The heap of a state as boxes and arrows. Objects and instances of predicates are nodes; a node stands in the column of the length of
// the shortest way to it from a variable. All text is written as text.
const SPACE = { row: 20, head: 24, pad: 8, letter: 7.9, bar: 34, gap: 18, column: 64, indent: 14 };
const MOST_NODES = 400, NOTHING_HELD = "nothing held";

function element(name, attributes, text) {
  const it = document.createElementNS("http://www.w3.org/2000/svg", name);
  for (const [key, value] of Object.entries(attributes)) it.setAttribute(key, value);
  if (text !== undefined) it.textContent = text;
  return it;
}

function isReference(word) { return /^#\d+$/.test(word); }

function short(text) { return text.length > 44 ? text.slice(0, 42) + ".." : text; }

function fraction(word) {
  const [above, below] = word.split("/").map(Number);
  return below ? above / below : 0;
}

function spoken(held) { return held === "1/1" ? "write" : held === "0/1" ? "none" : held; }

// The nodes of a state. `before` is the state before the step, by which what is new, other and gone is marked.
function nodesOf(state, before, folded) {
  const nodes = new Map(), old = new Map(before.places.map((it) => [it.object + "." + it.field, it]));
  const object = (name) => {
    if (!nodes.has(name)) nodes.set(name, { key: name, title: name, rows: [], tags: [], kind: "object" });
    return nodes.get(name);
  };
  for (const it of state.places) {
    const was = old.get(it.object + "." + it.field);
    object(it.object).rows.push({ name: it.field, value: it.value, held: it.held, depth: 0,
      isNew: !was || was.value !== it.value || was.held !== it.held });
    old.delete(it.object + "." + it.field);
  }
  for (const it of old.values()) object(it.object).rows.push({ name: it.field, value: it.value, held: "0/1", depth: 0, isGone: true });
  instances(state, before, folded, nodes);
  for (const [name, value] of state.variables) if (isReference(value)) object(value).tags.push(name);
  for (const node of [...nodes.values()]) {
    for (const row of node.rows) if (row.value && isReference(row.value)) object(row.value);
    for (const it of node.points || []) object(it);
  }
  for (const node of nodes.values()) if (node.kind === "object" && node.rows.length === 0) node.isEmpty = true;
  return nodes;
}

function instances(state, before, folded, nodes) {
  const old = new Map(before.instances.map((it) => [it.name, it]));
  const add = (it, isNew, isGone) => {
    const key = "@" + it.name, isOpen = !folded.has(key) && it.content.length > 0 && !isGone;
    const node = { key, title: it.name, held: it.held, rows: [], tags: [], kind: "instance", isNew, isGone, isOpen,
      canFold: it.content.length > 0 && !isGone, points: it.arguments.filter(isReference).slice(0, 1) };
    if (isOpen) contentRows(it.content, key, 0, folded, node.rows);
    nodes.set(key, node);
  };
  for (const it of state.instances) {
    const was = old.get(it.name);
    add(it, !was || was.held !== it.held || JSON.stringify(was.content) !== JSON.stringify(it.content), false);
    old.delete(it.name);
  }
  for (const it of old.values()) add(it, false, true);
}

// The rows of a content. Instances in it are open one level deep; deeper ones are opened by hand.
function contentRows(content, key, depth, folded, rows) {
  for (const it of content) {
    if (!it.content || it.content.length === 0) {
      rows.push({ name: it.name, value: it.value, depth });
      continue;
    }
    const inner = key + "/" + it.name, isOpen = depth < 1 ? !folded.has(inner) : folded.has(inner);
    rows.push({ name: it.name, depth, fold: inner, isOpen });
    if (isOpen) contentRows(it.content, inner, depth + 1, folded, rows);
  }
}

// Columns by the length of the shortest way from a variable; what no way leads to begins in the first one. An instance stands below the
// object that it is about, and what it contains is reached from there.
function columnsOf(nodes) {
  const column = new Map(), about = (node) => node.kind === "instance" && nodes.has(node.points[0]) ? node.points[0] : null;
  const inside = new Map();
  for (const node of nodes.values()) if (about(node)) inside.set(about(node), [...(inside.get(about(node)) || []), node]);
  const next = (key) => [nodes.get(key), ...(inside.get(key) || [])].flatMap((it) => it.rows.map((row) => row.value))
    .filter((it) => it && isReference(it) && nodes.has(it));
  const go = (starts) => {
    let wave = starts.filter((it) => !column.has(it));
    for (let depth = 0; wave.length; depth++) {
      for (const it of wave) column.set(it, depth);
      wave = [...new Set(wave.flatMap(next))].filter((it) => !column.has(it));
    }
  };
  const tops = [...nodes.values()].filter((it) => !about(it)).map((it) => it.key), reached = new Set(tops.flatMap(next));
  go(tops.filter((it) => nodes.get(it).tags.length));
  go(tops.filter((it) => !reached.has(it)));
  for (const it of tops) go([it]);
  for (const node of nodes.values()) if (about(node)) column.set(node.key, column.get(about(node)));
  const found = [], turn = new Map([...column.keys()].map((it, number) => [it, number]));
  const order = (node) => about(node) ? turn.get(about(node)) + 0.5 : turn.get(node.key);
  for (const node of nodes.values()) (found[column.get(node.key)] = found[column.get(node.key)] || []).push(node);
  for (const it of found) it.sort((a, b) => order(a) - order(b) || a.key.localeCompare(b.key, undefined, { numeric: true }));
  return found;
}

function measure(node) {
  const words = (row) => 2 * SPACE.letter + (short(row.name) + (row.value === undefined ? "" : "  " + short(row.value))).length * SPACE.letter + row.depth * SPACE.indent
    + (row.held ? SPACE.bar + spoken(row.held).length * SPACE.letter + 16 : 0) + (row.fold ? 16 : 0);
  const title = (short(node.title) + "  " + (node.held ? spoken(node.held) : "")).length * SPACE.letter + (node.held ? SPACE.bar + 30 : 10)
    + node.tags.reduce((sum, it) => sum + short(it).length * SPACE.letter + 20, 0);
  node.width = Math.max(node.isEmpty ? NOTHING_HELD.length * SPACE.letter : 84, title, ...node.rows.map(words)) + 2 * SPACE.pad;
  node.height = SPACE.head + node.rows.length * SPACE.row + (node.rows.length ? SPACE.pad : 0) + (node.isEmpty ? SPACE.row : 0);
}

function place(columns) {
  let x = 6, height = 0;
  for (const column of columns) {
    let y = 10;
    for (const node of column) {
      measure(node);
      Object.assign(node, { x, y });
      y += node.height + SPACE.gap;
    }
    x += Math.max(...column.map((it) => it.width)) + SPACE.column;
    height = Math.max(height, y);
  }
  return { width: x - SPACE.column + 40, height };
}

function bar(x, y, held) {
  const group = element("g", {}), part = Math.min(1, fraction(held)) * SPACE.bar;
  group.append(element("rect", { class: "rest", x, y: y - 9, width: SPACE.bar, height: 9 }));
  if (part > 0) group.append(element("rect", { class: "held", x, y: y - 9, width: part, height: 9 }));
  group.append(element("text", { x: x + SPACE.bar + 5, y, class: "faint" }, spoken(held)));
  return group;
}

function drawTitle(node, group, toggle) {
  const y = node.y + 17;
  let x = node.x + SPACE.pad;
  const words = node.canFold ? (node.isOpen ? "▾ " : "▸ ") + short(node.title) : short(node.title);
  const title = element("text", { x, y, class: "title" + (node.isGone ? " gone" : "") }, words);
  if (node.canFold) foldable(title, node.key, node.isOpen, node.title, toggle);
  group.append(title);
  x += words.length * SPACE.letter + 10;
  for (const it of node.tags) {
    const width = short(it).length * SPACE.letter + 12;
    group.append(element("rect", { class: "tag", x, y: y - 13, width, height: 18, rx: 9 }));
    group.append(element("text", { class: "tag-text", x: x + 6, y }, short(it)));
    x += width + 6;
  }
  if (node.held) group.append(bar(x, y, node.isGone ? "0/1" : node.held));
}

function foldable(it, key, isOpen, name, toggle) {
  for (const [attribute, value] of Object.entries({ class: (it.getAttribute("class") || "") + " fold", tabindex: 0, role: "button",
    "aria-expanded": isOpen, "aria-label": (isOpen ? "fold " : "unfold ") + name })) it.setAttribute(attribute, value);
  it.addEventListener("click", () => toggle(key));
  it.addEventListener("keydown", (event) => {
    if (event.key === "Enter" || event.key === " ") { event.preventDefault(); toggle(key); }
  });
}

function drawRow(node, row, number, group, toggle) {
  const y = node.y + SPACE.head + number * SPACE.row + 14, x = node.x + SPACE.pad + row.depth * SPACE.indent;
  if (row.isNew) group.append(element("rect", { class: "mark", x: node.x + 3, y: y - 14, width: node.width - 6, height: SPACE.row - 2 }));
  const name = (row.isNew ? "● " : row.fold ? (row.isOpen ? "▾ " : "▸ ") : "") + short(row.name);
  const text = element("text", { x, y, class: row.isGone ? "gone" : "" }, row.value === undefined ? name : name + "  " + short(row.value));
  if (row.fold) foldable(text, row.fold, row.isOpen, row.name, toggle);
  group.append(text);
  if (row.held) group.append(bar(node.x + node.width - SPACE.bar - spoken(row.held).length * SPACE.letter - 12, y - 1, row.held));
}

function drawNode(node, svg, toggle) {
  const shape = node.kind === "instance" ? "frame" : node.isEmpty ? "ghost" : "box", group = element("g", {});
  group.append(element("rect", { class: node.isNew ? "mark" : shape, x: node.x, y: node.y, width: node.width, height: node.height,
    rx: node.kind === "instance" ? 9 : 2 }));
  if (node.isNew) group.append(element("rect", { class: shape, x: node.x, y: node.y, width: node.width, height: node.height, rx: 9 }));
  drawTitle(node, group, toggle);
  node.rows.forEach((row, number) => drawRow(node, row, number, group, toggle));
  if (node.isEmpty) group.append(element("text", { x: node.x + SPACE.pad, y: node.y + SPACE.head + 14, class: "faint" }, NOTHING_HELD));
  svg.append(group);
}

// An arrow from a row to a node: to its left side where it stands farther right, and else around to its right side.
function drawArrow(from, number, to, svg) {
  const x = from.x + from.width, y = from.y + SPACE.head + number * SPACE.row + 10;
  const isRight = to.x > x, end = { x: isRight ? to.x : to.x + to.width, y: to.y + 12 };
  const bend = isRight ? Math.max(24, (end.x - x) / 2) : 34 + Math.abs(end.y - y) / 12, side = isRight ? -1 : 1;
  const far = Math.max(x, end.x) + bend;
  const path = isRight ? `M${x} ${y} C${x + bend} ${y} ${end.x - bend} ${end.y} ${end.x - 6} ${end.y}`
    : `M${x} ${y} C${far} ${y} ${far} ${end.y} ${end.x + 6} ${end.y}`;
  svg.append(element("path", { class: "arrow", d: path }));
  svg.append(element("path", { class: "head", d: `M${end.x} ${end.y} l${8 * side} -4 v8 z` }));
}

// Draws a state into an element. `folded` has the keys of what was folded or unfolded by hand.
function drawHeap(into, state, before, folded) {
  const nodes = nodesOf(state, before, folded);
  into.replaceChildren();
  if (nodes.size === 0 || nodes.size > MOST_NODES) {
    const none = document.createElement("p");
    none.className = "none";
    none.textContent = nodes.size ? `${nodes.size} objects and instances: too many to draw; the state in words has them.` : "Nothing is held.";
    into.append(none);
    return;
  }
  const toggle = (key) => {
    if (!folded.delete(key)) folded.add(key);
    drawHeap(into, state, before, folded);
    const again = [...into.querySelectorAll(".fold")].find((it) => it.dataset.key === key);
    if (again) again.focus();
  };
  const columns = columnsOf(nodes).filter(Boolean), size = place(columns);
  const svg = element("svg", { width: size.width, height: size.height, viewBox: `0 0 ${size.width} ${size.height}`, role: "group",
    "aria-label": "objects, their fields and what is held; the state in words below has the same" });
  for (const node of nodes.values()) drawNode(node, svg, toggle);
  for (const node of nodes.values()) {
    node.rows.forEach((row, number) => {
      if (row.value && isReference(row.value) && nodes.has(row.value) && !row.isGone) drawArrow(node, number, nodes.get(row.value), svg);
    });
  }
  into.append(svg);
}
