// The conflict graph, with the edges that rule the read which is selected, or which waits.

const MOST_NODES = 12;
const DASHES = {P1: "2 3", P2: "7 3", P3: "none"};
const PROTOCOLS = {P1: "#888888", P2: "#56B4E9", P3: "#D55E00"};
const PROTOCOL_WORDS = "P1, dotted: waits for nobody. P2, dashed: reads as of one time. P3, solid: sees all changes before its timestamp, and none after.";
const BLOCKS = ["#0072B2", "#D55E00", "#009E73", "#CC79A7", "#E69F00", "#56B4E9", "#7a5195", "#8c6d31"];

function tableEdges(run) {
  return run.data.table.map(reported => {
    const [reader, , fragment, , module, , writer, protocol, , block] = reported.split(" ");
    return {reader, fragment, module, writer, protocol, block};
  });
}

// The READ that the event speaks of, or that is selected, or that waits.
function readInView(view) {
  const chosen = view.selected?.n ? view.run.message(view.selected.link, view.selected.n) : null;
  if (chosen?.kind === "READ") return {...chosen, isWaiting: waitsAt(view, view.selected.link.split(">")[1], chosen)};
  for (const {words} of view.run.recordsAt.get(view.event) || []) {
    const read = ["arrive", "wait", "answer", "reject"].includes(words[0]) && view.run.reads.get(words[1] + " " + words[2]);
    if (read) return {...read, isWaiting: waitsAt(view, words[2], read)};
  }
  for (const dm of view.run.dms) {
    for (const head of view.state.site(dm).heads || []) {
      const pipe = view.state.pipe(dm, head.class);
      if (head.waits && pipe) return {...view.run.message(view.run.home.get(head.class) + ">" + dm, pipe.waiting[0]), isWaiting: true};
    }
  }
  return null;
}

function waitsAt(view, dm, read) {
  return (view.state.site(dm).heads || []).some(head => head.waits && head.class === read.class);
}

function drawGraph(view) {
  const box = byId("graph"), edges = view.run.tableEdges ??= tableEdges(view.run), read = readInView(view);
  if (view.isDrawn("graph", read?.txn, read?.class, read?.isWaiting, view.graphByBlock, document.documentElement.className)) return;
  const ruling = edges.filter(edge => edge.reader === read?.class);
  const blocks = new Set(ruling.map(edge => edge.block).filter(block => block !== "-"));
  const names = view.run.classes.filter(name => view.run.lists.get(name) === 0);
  box.textContent = "";
  byId("graph-note").textContent = noteOf(read);
  if (names.length > MOST_NODES) return box.append(...graphMatrix(view, names, edges, read, () => drawGraph(view)));
  box.append(graphDrawing(names, edges, ruling.length ? read : null, blocks));
  box.append(element("p", "faint", PROTOCOL_WORDS));
}

// Red where the read waits; it is at work else.
function inkOfRead(read) { return read?.isWaiting ? "var(--bad)" : "var(--asks)"; }

function noteOf(read) {
  if (!read) return "an arrow leads from who reads to who writes it";
  if (read.class === "-") return `${read.txn} is undeclared: it waits for every class`;
  return `the edges that rule the read of ${read.txn}`;
}

function placesOf(names, width, height) {
  if (names.length === 1) return new Map([[names[0], [width / 2, height / 2]]]);
  if (names.length === 2) return new Map(names.map((name, k) => [name, [width * (0.25 + 0.5 * k), height / 2]]));
  return new Map(names.map((name, k) => {
    const angle = 2 * Math.PI * k / names.length - Math.PI / 2;
    return [name, [width / 2 + Math.cos(angle) * width * 0.36, height / 2 + Math.sin(angle) * height * 0.4]];
  }));
}

function graphDrawing(names, edges, read, blocks) {
  const width = 440, height = names.length < 3 ? 96 : names.length < 7 ? 190 : 250, places = placesOf(names, width, height);
  const drawing = shape("svg", {viewBox: `0 0 ${width} ${height}`, width: "100%"}), joined = new Map();
  const head = shape("marker", {id: "graph-arrow", viewBox: "0 0 8 8", refX: 8, refY: 4, markerWidth: 6, markerHeight: 6, orient: "auto"});
  head.append(shape("path", {d: "M0,0L8,4L0,8z", fill: "context-stroke"}));
  drawing.append(head);
  for (const edge of edges) getOrMake(joined, edge.reader + " " + edge.writer, () => ({...edge, fragments: []})).fragments.push(edge.fragment);
  for (const edge of joined.values()) {
    const rules = read?.class === edge.reader, isNear = blocks.has(edge.block);
    if (places.has(edge.reader) && places.has(edge.writer)) drawing.append(...arrowOf(edge, places, rules && inkOfRead(read), !read || rules || isNear));
  }
  for (const [name, [x, y]] of places) {
    const text = name.length > 18 ? name.slice(0, 16) + ".." : name, half = text.length * 3.6 + 8, isReader = read?.class === name;
    drawing.append(shape("rect", {x: x - half, y: y - 10, width: 2 * half, height: 20, rx: 5, fill: isReader ? "var(--selected)" : "var(--card)",
      stroke: isReader ? inkOfRead(read) : "var(--ink)", "stroke-width": isReader ? 2 : 1}));
    const node = shape("text", {x, y: y + 4, class: "node"}, text);
    node.append(shape("title", {}, name));
    drawing.append(node);
  }
  return drawing;
}

function arrowOf(edge, places, rules, isStrong) {
  const [x1, y1] = places.get(edge.reader), [x2, y2] = places.get(edge.writer), length = Math.hypot(x2 - x1, y2 - y1);
  const mx = (x1 + x2) / 2 - (y2 - y1) / length * 18, my = (y1 + y2) / 2 + (x2 - x1) / length * 18;
  const at = t => [x1 * (1 - t) ** 2 + 2 * mx * t * (1 - t) + x2 * t * t, y1 * (1 - t) ** 2 + 2 * my * t * (1 - t) + y2 * t * t];
  const colour = rules || "var(--faint)", opacity = isStrong ? 1 : 0.35, [x, y] = at(0.4);
  const path = shape("path", {d: `M${at(0.16)}Q${mx},${my} ${at(0.84)}`, fill: "none", stroke: colour, "stroke-width": rules ? 2.6 : isStrong ? 1.6 : 1,
    "stroke-dasharray": DASHES[edge.protocol], opacity, "marker-end": "url(#graph-arrow)"});
  const text = `${edge.protocol} ${shortened(edge.fragments, 2).join(", ")}`;
  path.append(shape("title", {}, `${edge.reader} reads ${edge.fragments.join(", ")}, which ${edge.writer} writes: ${edge.protocol}, block ${edge.block}`));
  return [path, shape("text", {x, y: y + 3, class: "edge", fill: colour, opacity, "font-weight": rules ? 700 : 400}, text)];
}

// Beyond a dozen classes: readers down, writers across; the colour says the protocol, or the block, and `redraw` follows a
// change of that.
function graphMatrix(view, names, edges, read, redraw) {
  const canvas = element("canvas"), size = Math.max(5, Math.floor(416 / names.length)), pen = canvas.getContext("2d");
  const place = new Map(names.map((name, k) => [name, k])), byBlock = view.graphByBlock;
  canvas.width = canvas.height = names.length * size;
  pen.fillStyle = colourOf("--soft");
  pen.fillRect(0, 0, canvas.width, canvas.height);
  for (const {reader, writer, protocol, block} of edges) {
    pen.fillStyle = !byBlock ? PROTOCOLS[protocol] : block === "-" ? "#888888" : BLOCKS[(block - 1) % BLOCKS.length];
    pen.fillRect(place.get(writer) * size, place.get(reader) * size, size - 1, size - 1);
  }
  if (read && place.has(read.class)) {
    pen.strokeStyle = colourOf(read.isWaiting ? "--bad" : "--asks");
    pen.lineWidth = 2;
    pen.strokeRect(1, place.get(read.class) * size - 1, canvas.width - 2, size + 1);
  }
  canvas.onmousemove = event => { canvas.title = cellWords(names, edges, Math.floor(event.offsetY / size), Math.floor(event.offsetX / size)); };
  const change = button(byBlock ? "colour: block" : "colour: protocol", "", () => { view.graphByBlock = !byBlock; redraw(); });
  const key = element("p", "faint", byBlock ? "Readers down, writers across. Grey: no block. " : "Readers down, writers across. Grey P1, blue P2, orange P3. ");
  key.append(change);
  return [key, canvas];
}

function cellWords(names, edges, row, column) {
  const mine = edges.filter(edge => edge.reader === names[row] && edge.writer === names[column]);
  if (!mine.length) return `${names[row]} reads nothing that ${names[column]} writes`;
  return `${names[row]} reads ${joined(mine.map(edge => edge.fragment))}, which ${names[column]} writes: ${mine[0].protocol}, block ${mine[0].block}`;
}
