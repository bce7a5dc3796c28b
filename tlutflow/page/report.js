"use strict";
// The circuit as a picture that can be moved and zoomed. CIRCUIT has the nodes (inputs and flip-flops, then LUTs in an order in which
// each one comes after those that it reads), the outputs, and a critical path.
(() => {
  const nodes = CIRCUIT.nodes, outputs = CIRCUIT.outputs, path = new Set(CIRCUIT.path);
  const stage = document.getElementById("stage"), about = document.getElementById("about"), choice = document.getElementById("choice");
  const MANY = 150, STEP_X = 190, STEP_Y = 26, WIDTH = 120, HEIGHT = 20, FILL = { lut: "#e8e8e8", tunable: "#ffd08a", input: "#ffffff", flop: "#cfe2ff", output: "#ffffff" };
  const readers = nodes.map(() => []);
  nodes.forEach((node, place) => node.from.forEach(it => readers[it].push(place)));

  // The nodes from which a set of nodes can be reached, or that can be reached from it.
  function reach(starts, next) {
    const found = new Set(), waiting = [...starts];
    while (waiting.length) {
      const it = waiting.pop();
      if (!found.has(it)) { found.add(it); waiting.push(...next(it)); }
    }
    return found;
  }
  const cone = starts => reach(starts, it => nodes[it].from);
  const isLut = it => nodes[it].kind === "lut" || nodes[it].kind === "tunable";
  const luts = set => [...set].filter(isLut).length;

  const SVG = "http://www.w3.org/2000/svg";
  function make(name, attributes, parent) {
    const made = document.createElementNS(SVG, name);
    for (const key in attributes) made.setAttribute(key, attributes[key]);
    if (parent) parent.appendChild(made);
    return made;
  }

  // The places of the shown nodes: a column for each logic level, in each one the order of the neighbours' means.
  function layout(shown) {
    const ends = outputs.map((it, place) => ({ place, root: it.root })).filter(it => shown.has(it.root));
    const last = Math.max(0, ...[...shown].map(it => nodes[it].depth)) + 1, columns = Array.from({ length: last + 1 }, () => []);
    [...shown].sort((a, b) => a - b).forEach(it => columns[nodes[it].depth].push(it));
    ends.forEach(it => columns[last].push("o" + it.place));
    const before = new Map(), after = new Map();
    const link = (a, b) => { if (!after.has(a)) after.set(a, []); after.get(a).push(b); if (!before.has(b)) before.set(b, []); before.get(b).push(a); };
    shown.forEach(it => nodes[it].from.forEach(from => shown.has(from) && link(from, it)));
    ends.forEach(it => link(it.root, "o" + it.place));
    const at = new Map();
    const put = column => column.forEach((it, place) => at.set(it, place - (column.length - 1) / 2));
    columns.forEach(put);
    const sort = (column, near) => {
      const mean = new Map(column.map(it => { const list = near.get(it) || []; return [it, list.length ? list.reduce((sum, other) => sum + at.get(other), 0) / list.length : at.get(it)]; }));
      column.sort((a, b) => mean.get(a) - mean.get(b));
      put(column);
    };
    for (let turn = 0; turn < 6; turn++) {
      for (let level = 1; level <= last; level++) sort(columns[level], before);
      for (let level = last - 1; level >= 0; level--) sort(columns[level], after);
    }
    const places = new Map();
    // A level of many nodes has several columns beside one another, so that the picture isn't much higher than wide.
    const rows = Math.max(30, Math.ceil(Math.sqrt(shown.size * 3)));
    let left = 0;
    columns.forEach(column => {
      const beside = Math.ceil(column.length / rows) || 1, many = Math.ceil(column.length / beside);
      column.forEach((it, place) => places.set(it, [left + (place % beside) * (WIDTH + 12), (Math.floor(place / beside) - (many - 1) / 2) * STEP_Y]));
      left += STEP_X + (beside - 1) * (WIDTH + 12);
    });
    return { places, ends };
  }

  let view = { x: 0, y: 0, scale: 1 }, world = null, drawn = new Map(), edges = [], bounds = [0, 0, 1, 1], shown = new Set(), history = [];

  function place() {
    world.setAttribute("transform", `translate(${view.x} ${view.y}) scale(${view.scale})`);
    world.setAttribute("class", view.scale < 0.45 ? "far" : "");
  }
  function fit() {
    const [left, top, right, bottom] = bounds;
    // A picture that is much wider than high, such as a path, needs no high stage.
    stage.style.height = "";
    const most = stage.offsetHeight, needed = (bottom - top + 40) * Math.min(stage.clientWidth / (right - left + 40), 1.6);
    stage.style.height = `${Math.max(180, Math.min(most, needed))}px`;
    const box = stage.getBoundingClientRect();
    const scale = Math.min(box.width / (right - left + 40), box.height / (bottom - top + 40), 1.6);
    view = { scale, x: (box.width - (left + right) * scale) / 2, y: (box.height - (top + bottom) * scale) / 2 };
    place();
  }
  function zoom(factor, x, y) {
    const scale = Math.min(4, Math.max(0.02, view.scale * factor));
    view.x = x - (x - view.x) * scale / view.scale;
    view.y = y - (y - view.y) * scale / view.scale;
    view.scale = scale;
    place();
  }

  function draw(set) {
    shown = set;
    stage.textContent = "";
    drawn = new Map();
    edges = [];
    const svg = make("svg", {}, stage);
    world = make("g", {}, svg);
    const { places, ends } = layout(set);
    const line = (from, to) => {
      const [a, b] = [places.get(from), places.get(to)], x = a[0] + WIDTH, middle = (x + b[0]) / 2;
      const red = path.has(from) && (path.has(to) || (typeof to === "string" && outputs[+to.slice(1)].name === CIRCUIT.end)) && (typeof to === "string" || nodes[to].depth === nodes[from].depth + 1);
      const made = make("path", { d: `M${x} ${a[1]}C${middle} ${a[1]} ${middle} ${b[1]} ${b[0]} ${b[1]}`, fill: "none", stroke: red ? "#d01c1c" : "#8a94a3", "stroke-width": red ? 2 : 0.8 }, world);
      edges.push({ from, to, made });
    };
    set.forEach(it => nodes[it].from.forEach(from => set.has(from) && line(from, it)));
    ends.forEach(it => line(it.root, "o" + it.place));
    let box = [1e9, 1e9, -1e9, -1e9];
    places.forEach(([x, y], it) => {
      const isEnd = typeof it === "string", node = isEnd ? { kind: "output", name: outputs[+it.slice(1)].name } : nodes[it];
      const group = make("g", { class: "node", transform: `translate(${x} ${y - HEIGHT / 2})` }, world);
      const onPath = isEnd ? node.name === CIRCUIT.end : path.has(it);
      make("rect", { width: WIDTH, height: HEIGHT, rx: node.kind === "lut" || node.kind === "tunable" ? 2 : 9, fill: FILL[node.kind], stroke: onPath ? "#d01c1c" : "#7a8494", "stroke-width": onPath ? 2 : 1 }, group);
      const label = make("text", { x: WIDTH / 2, y: 14, "text-anchor": "middle" }, group);
      label.textContent = short(node.name + (node.kind === "tunable" ? " \u00b7 " + node.read : ""));
      make("title", {}, group).textContent = node.name;
      group.dataset.node = it;
      drawn.set(it, group);
      box = [Math.min(box[0], x), Math.min(box[1], y - 12), Math.max(box[2], x + WIDTH), Math.max(box[3], y + 12)];
    });
    bounds = set.size ? box : [0, 0, 1, 1];
    fit();
    const many = luts(set);
    about.textContent = `${many} LUT${many === 1 ? "" : "s"} shown. Click a node to see what it reads and what reads it; double-click it to show its cone alone.`;
  }
  const short = text => text.length > 20 ? text.slice(0, 18) + "\u2026" : text;

  function select(it) {
    const start = typeof it === "string" ? outputs[+it.slice(1)].root : it;
    const near = new Set([...cone([start]), ...reach([start], other => readers[other])]);
    const lit = other => typeof other === "string" ? near.has(outputs[+other.slice(1)].root) && (other === it || reach([start], x => readers[x]).has(outputs[+other.slice(1)].root)) : near.has(other);
    const isLit = new Map([...drawn.keys()].map(other => [other, lit(other)]));
    drawn.forEach((group, other) => { group.classList.toggle("faded", !isLit.get(other)); group.classList.toggle("chosen", other === it); });
    edges.forEach(edge => edge.made.classList.toggle("faded", !(isLit.get(edge.from) && isLit.get(edge.to))));
    about.textContent = tell(it, start);
  }
  function tell(it, start) {
    if (typeof it === "string") return `Output ${outputs[+it.slice(1)].name}, the value of ${nodes[start].name}. Its cone has ${luts(cone([start]))} LUTs.`;
    const node = nodes[it];
    if (!isLut(it)) return `${node.kind === "flop" ? "Flip-flop" : "Input"} ${node.name}, read by ${readers[it].length} LUTs.` + (node.next === undefined ? "" : ` Its next state is ${node.next}.`);
    const parts = [`LUT ${node.name}, level ${node.depth}, reads ${node.from.map(from => nodes[from].name).join(", ") || "nothing"}; bits ${node.bits}.`];
    parts.push(node.params ? `Its bits depend on ${node.params}.` : "Its bits never change.");
    if (node.drives) parts.push(`It drives ${node.drives}.`);
    parts.push(`Its cone has ${luts(cone([it]))} LUTs, over ${node.support}.`);
    return parts.join(" ");
  }
  function clear() {
    drawn.forEach(group => group.classList.remove("faded", "chosen"));
    edges.forEach(edge => edge.made.classList.remove("faded"));
  }
  function show(set, remember = true) {
    if (remember && shown.size) history.push(shown);
    draw(set);
  }

  const everything = () => new Set(nodes.keys());
  function pathView() {
    const set = new Set(CIRCUIT.path);
    CIRCUIT.path.forEach(it => nodes[it].from.forEach(from => set.add(from)));
    return set;
  }
  const option = (value, text) => { const made = document.createElement("option"); made.value = value; made.textContent = text; choice.appendChild(made); };
  option("all", `the whole circuit (${luts(everything())} LUTs)`);
  if (CIRCUIT.path.length) option("path", "the critical path and what it reads");
  outputs.forEach((it, place) => option("o" + place, `output ${it.name} (${luts(cone([it.root]))} LUTs)`));
  nodes.forEach((node, place) => { if (node.kind === "flop" && node.root !== undefined) option("f" + place, `next state of ${node.name} (${luts(cone([node.root]))} LUTs)`); });
  const chosen = value => value === "all" ? everything() : value === "path" ? pathView() : cone([value[0] === "o" ? outputs[+value.slice(1)].root : nodes[+value.slice(1)].root]);
  choice.onchange = () => show(chosen(choice.value));

  document.getElementById("back").onclick = () => history.length && draw(history.pop());
  document.getElementById("fit").onclick = fit;
  const centre = factor => { const box = stage.getBoundingClientRect(); zoom(factor, box.width / 2, box.height / 2); };
  document.getElementById("in").onclick = () => centre(1.4);
  document.getElementById("out").onclick = () => centre(1 / 1.4);
  document.getElementById("find").onchange = event => {
    const place = nodes.findIndex(node => node.name === event.target.value.trim());
    if (place < 0) { about.textContent = `There is no net ${event.target.value} in the mapped circuit.`; return; }
    show(cone([place]));
    select(place);
  };
  stage.addEventListener("wheel", event => {
    event.preventDefault();
    const box = stage.getBoundingClientRect();
    zoom(event.deltaY < 0 ? 1.15 : 1 / 1.15, event.clientX - box.left, event.clientY - box.top);
  }, { passive: false });
  let grip = null, moved = false;
  stage.onpointerdown = event => { grip = [event.clientX - view.x, event.clientY - view.y]; moved = false; };
  window.addEventListener("pointermove", event => {
    if (!grip) return;
    const x = event.clientX - grip[0], y = event.clientY - grip[1];
    if (!moved && Math.hypot(x - view.x, y - view.y) < 4) return;
    moved = true;
    view.x = x;
    view.y = y;
    place();
  });
  window.addEventListener("pointerup", () => { grip = null; });
  const nodeOf = event => { const group = event.target.closest(".node"); if (!group) return null; const it = group.dataset.node; return it[0] === "o" ? it : +it; };
  stage.onclick = event => { if (moved) return; const it = nodeOf(event); if (it === null) clear(); else select(it); };
  stage.ondblclick = event => { const it = nodeOf(event); if (it === null) return; const start = typeof it === "string" ? outputs[+it.slice(1)].root : it; show(cone([start])); select(it); };
  window.addEventListener("resize", () => world && fit());
  document.querySelectorAll("[data-show]").forEach(link => link.onclick = () => {
    const place = nodes.findIndex(node => node.name === link.dataset.show);
    if (place >= 0) { show(cone([place])); select(place); document.getElementById("picture").scrollIntoView(); }
  });

  // A name may have a % that codes nothing, in an address that somebody wrote.
  const decoded = text => { try { return decodeURIComponent(text); } catch { return text; } };
  const hash = location.hash.slice(1), wanted = decoded(hash);
  const first = outputs.findIndex(it => [wanted, hash].includes("cone=" + it.name));
  choice.value = first >= 0 ? "o" + first : wanted === "all" ? "all" : luts(everything()) > MANY && CIRCUIT.path.length ? "path" : "all";
  draw(chosen(choice.value));
})();
