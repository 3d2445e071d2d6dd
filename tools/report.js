"use strict";
// The tree of the files, made as it is opened; a mod's arcs where it is chosen.

const AT_ONCE = 500;
const STEPS = ["is linked", "comes back", "goes"];
const find = (name) => document.getElementById(name);

function make(tag, kind, text) {
  const made = document.createElement(tag);
  if (kind) made.className = kind;
  if (text !== undefined) made.textContent = text;
  return made;
}

async function load() {
  const plain = find("data");
  if (plain) return JSON.parse(plain.textContent);
  const packed = find("packed").textContent;
  const bytes = Uint8Array.from(atob(packed), (letter) => letter.charCodeAt(0));
  const stream = new Blob([bytes]).stream().pipeThrough(new DecompressionStream("deflate"));
  return JSON.parse(await new Response(stream).text());
}

// The columns by the number of a file.
function spread(data) {
  const column = (rows) => new Map(rows.map((row) => [row[0], row.slice(1)]));
  data.conflicts = column(data.conflicts);
  data.changes = column(data.changes);
  data.sets = column(data.sets);
  return data;
}

function treeOf(data, numbers) {
  const top = { folders: new Map(), files: [], count: 0, conflicts: 0, changes: 0, planned: 0 };
  for (const number of numbers) {
    const names = data.paths[number].split("/");
    let at = top;
    for (let depth = 0; ; depth++) {
      at.count++;
      if (data.conflicts.has(number)) at.conflicts++;
      if (data.changes.has(number)) at.changes++;
      if (data.sets.has(number)) at.planned++;
      if (depth === names.length - 1) break;
      let next = at.folders.get(names[depth]);
      if (!next) {
        next = { folders: new Map(), files: [], count: 0, conflicts: 0, changes: 0, planned: 0 };
        at.folders.set(names[depth], next);
      }
      at = next;
    }
    at.files.push(number);
  }
  return top;
}

function listOf(data, node, whole) {
  const list = make("ul");
  const items = [...node.folders].map(([name, folder]) => () => folderItem(data, name, folder));
  for (const number of node.files) items.push(() => fileItem(data, number, whole));
  more(list, items, 0);
  return list;
}

function more(list, items, from) {
  for (const item of items.slice(from, from + AT_ONCE)) list.append(item());
  const left = items.length - from - AT_ONCE;
  if (left <= 0) return;
  const line = make("li");
  const button = make("button", "", `${Math.min(left, AT_ONCE)} more of ${left}`);
  button.onclick = () => {
    line.remove();
    more(list, items, from + AT_ONCE);
  };
  line.append(button);
  list.append(line);
}

function folderItem(data, name, node) {
  const item = make("li", "folder");
  const shown = make("span", "name", name);
  item.append(shown, " ", make("span", "count", `${node.count} `));
  const mark = (kind, count, what) => {
    if (count) item.append(make("span", `mark ${kind}`, `${count} ${what}`), " ");
  };
  mark("position", node.conflicts, "contested");
  mark("Replaced", node.changes, "changed");
  mark("planned", node.planned, "in the plan");
  shown.onclick = () => {
    if (item.classList.toggle("open")) item.append(listOf(data, node));
    else item.lastChild.remove();
  };
  return item;
}

function fileItem(data, number, whole) {
  const item = make("li");
  const path = data.paths[number];
  const shown = make("span", "name", whole ? path : path.slice(path.lastIndexOf("/") + 1));
  const winner = data.winners[number];
  item.append(shown, " ", make("span", "mod", winner < 0 ? "" : data.mods[winner]), " ");
  const conflict = data.conflicts.get(number);
  const change = data.changes.get(number);
  const step = data.sets.get(number);
  if (conflict) {
    const reason = data.reasons[conflict[0]];
    item.append(make("span", `mark ${reason}`, `${reason}, of ${conflict.length - 1} mods`), " ");
  }
  if (change) {
    const kind = data.classes[change[0]];
    item.append(make("span", `mark ${kind}`, kind), " ");
    shown.classList.add(kind);
  }
  if (step) item.append(make("span", "mark planned", stepText(step)));
  if (!conflict) return item;
  shown.onclick = () => {
    if (item.classList.toggle("open")) item.append(providersOf(data, winner, conflict));
    else item.lastChild.remove();
  };
  return item;
}

function stepText(step) {
  return STEPS[step[0]] + (step[1] ? ", over a file of the game" : "");
}

function providersOf(data, winner, conflict) {
  const shown = make("div", "detail", "in load order: ");
  conflict.slice(1).forEach((mod, index) => {
    if (index) shown.append(", ");
    shown.append(make("span", mod === winner ? "wins" : "", data.mods[mod]));
  });
  return shown;
}

function has(data, number, mod) {
  const conflict = data.conflicts.get(number);
  return conflict ? conflict.indexOf(mod, 1) > 0 : data.winners[number] === mod;
}

function show(data) {
  const part = find("part").value.toLowerCase();
  const mod = find("mod").value ? data.mods.indexOf(find("mod").value) : null;
  const numbers = [];
  for (let number = 0; number < data.paths.length; number++) {
    if (part && !data.paths[number].toLowerCase().includes(part)) continue;
    if (mod !== null && !has(data, number, mod)) continue;
    if (find("contested").checked && !data.conflicts.has(number)) continue;
    if (find("changed").checked && !data.changes.has(number)) continue;
    if (find("planned").checked && !data.sets.has(number)) continue;
    numbers.push(number);
  }
  const few = numbers.length <= 60 && numbers.length < data.paths.length;
  find("told").textContent = `${numbers.length} of ${data.paths.length} files`;
  const node = few ? { folders: new Map(), files: numbers } : treeOf(data, numbers);
  find("tree").replaceChildren(listOf(data, node, few));
  const first = find("tree").querySelectorAll(":scope > ul > .folder > .name");
  if (first.length === 1) first[0].click();
}

function choose(name) {
  const arcs = [...document.querySelectorAll(".arc")];
  const nodes = [...document.querySelectorAll(".node")];
  const is = (node) => node.dataset.mod === name;
  const again = nodes.some((node) => is(node) && node.classList.contains("chosen"));
  for (const node of nodes) node.classList.toggle("chosen", !again && is(node));
  for (const arc of arcs) {
    arc.classList.toggle("dim", !again && !arc.dataset.mods.split("\t").includes(name));
  }
}

document.addEventListener("click", (event) => {
  const node = event.target.closest(".node");
  const mod = event.target.closest("td .mod");
  if (node) choose(node.dataset.mod);
  if (mod) {
    choose(mod.textContent);
    const graph = find("graph");
    if (graph) graph.scrollIntoView();
  }
});

if (find("tree")) {
  load().then(spread).then((data) => {
    for (const mod of data.mods) find("mods-list").append(new Option(mod));
    let timer = 0;
    find("filter").addEventListener("input", () => {
      clearTimeout(timer);
      timer = setTimeout(() => show(data), 150);
    });
    show(data);
  }).catch((error) => {
    find("told").textContent = `The files can't be shown: ${error}`;
  });
}
