// Space-time: a row for each site, time to the right, a slanted line for each packet. What is lost ends in a cross.

const SPAN = 26, MOST_LANES = 5;
const LINES = {READ: "--asks", FETCH: "--asks", REDUCE: "--asks", SHIP: "--asks", WRITE: "--write", NULL: "--null", ASK: "--ask",
  REJECT: "--reject", HOLD: "--hold", HELD: "--hold", DONE: "--hold", RELEASE: "--hold", ack: "--line"};
const MARKS = ["start", "answer", "commit", "apply", "wait", "reject"];

function drawPast(view) {
  const box = byId("past"), run = view.run, span = Math.min(run.count + 1, SPAN);
  const first = Math.max(0, Math.min(view.event - Math.floor(span * 0.62), run.count + 1 - span));
  const packets = packetsBetween(view, first), lanes = lanesOf(view, packets), step = Math.max(16, Math.min(32, innerHeight * 0.2 / lanes.length));
  const width = box.clientWidth || 1000, height = lanes.length * step + 30;
  const scene = {view, first, last: first + span, lanes, width, height};
  scene.x = event => 46 + (width - 60) * (event - first) / span;
  scene.y = site => 26 + lanes.indexOf(site) * step;
  const drawing = shape("svg", {width, height});
  drawing.append(...groundOf(scene));
  for (const packet of packets) drawing.append(...wayOf(scene, packet));
  drawing.append(...recordMarks(scene), ...namesOf(scene));
  box.textContent = "";
  box.append(drawing);
}

// The packets that were in flight at an event or were put in flight behind it, up to the present one.
function packetsBetween(view, first) {
  const run = view.run, before = run.stateAt(Math.max(0, first - 1)), packets = [];
  for (const link of before.links.values()) packets.push(...link.flight.map(id => run.packets[id]));
  packets.push(...run.packets.slice(run.firstPacket[Math.max(1, first)], run.firstPacket[view.event + 1]));
  return packets;
}

// All sites of a small system; of others those of the event, and those to which most packets of the window go.
function lanesOf(view, packets) {
  const sites = view.run.sites();
  if (view.run.isSmall) return sites;
  const line = view.run.lineAt(view.event), weight = new Map(sites.map(site => [site, 0]));
  const near = new Set([...(line?.sites || []).map(reported => reported.at), ...(line ? line.do.split(" ").slice(1, 3) : [])]);
  for (const {from, to, n} of packets) {
    const isNear = near.has(from) || near.has(to);
    for (const site of [from, to]) weight.set(site, weight.get(site) + (n ? 1 : 0.2) + (isNear ? 1000 : 0));
  }
  for (const site of near) if (weight.has(site)) weight.set(site, 1e9);
  const chosen = sites.slice().sort((a, b) => weight.get(b) - weight.get(a)).slice(0, MOST_LANES);
  return sites.filter(site => chosen.includes(site));
}

function groundOf(scene) {
  const {x, y, width, height, view} = scene, shapes = [];
  for (const site of scene.lanes) {
    shapes.push(shape("line", {x1: 40, x2: width, y1: y(site), y2: y(site), stroke: "var(--line)"}));
  }
  shapes.push(shape("line", {x1: x(view.event), x2: x(view.event), y1: 6, y2: height - 16, stroke: "var(--new)", "stroke-width": 1.5, "stroke-dasharray": "2 2"}));
  for (let event = Math.max(1, scene.first); event < scene.last && event <= view.run.count; event++) {
    const number = shape("text", {x: x(event), y: height - 4, class: event === view.event ? "number now" : "number"}, event);
    number.onclick = () => view.go(event);
    shapes.push(number);
  }
  return shapes;
}

function namesOf({lanes, y, height}) {
  const cover = shape("rect", {x: 0, y: 0, width: 38, height, fill: "var(--ground)"});
  return [cover, ...lanes.map(site => shape("text", {x: 8, y: y(site) + 4, class: "site-name"}, site))];
}

function wayOf(scene, packet) {
  const {x, y, view, lanes} = scene, kind = view.run.kindOf(packet), isAck = !packet.n;
  if (!lanes.includes(packet.from) || !lanes.includes(packet.to)) return [];
  const isOver = packet.taken > 0 && packet.taken <= view.event, isLost = isOver && packet.lost;
  const x1 = x(packet.put), y1 = y(packet.from), x2 = isOver ? x(packet.taken) : Math.min(x(view.event + 0.6), x(scene.last));
  const y2 = y1 + (y(packet.to) - y1) * (isLost ? 0.6 : isOver ? 1 : 0.55), colour = `var(${LINES[kind] || "--rows"})`;
  const dash = isLost ? "4 3" : !isOver || kind === "ASK" ? "2 3" : packet.again ? "6 2" : "none";
  const line = shape("path", {d: `M${x1},${y1}L${x2},${y2}`, stroke: isLost ? "var(--gone)" : colour, "stroke-width": isAck ? 1 : 2, "stroke-dasharray": dash, fill: "none"});
  line.append(shape("title", {}, `${labelOf(view.run, packet)} from ${packet.from} to ${packet.to}, sent at event ${packet.put}` +
    (isOver ? `, ${isLost ? "lost" : "delivered"} at event ${packet.taken}` : ", in flight")));
  const shapes = [line];
  if (isLost) shapes.push(shape("text", {x: x2 - 5, y: y2 + 5, class: "cross"}, "\u2715"));
  else if (isOver) shapes.push(shape("circle", {cx: x2, cy: y2, r: isAck ? 1.5 : 3, fill: colour}));
  const part = 0.25 + 0.13 * (packet.id % 4), nameX = x1 + (x2 - x1) * part;
  if (!isAck && x2 - x1 > 30 && nameX > 40) shapes.push(shape("text", {x: nameX, y: y1 + (y2 - y1) * part - 2, class: "name"}, labelOf(view.run, packet)));
  return shapes;
}

function recordMarks(scene) {
  const {view, x, y} = scene, shapes = [];
  for (let event = Math.max(1, scene.first); event <= view.event; event++) {
    const reported = new Map();             // site -> kinds of records that are marked there
    for (const {words} of view.run.recordsAt.get(event) || []) {
      const site = siteOfRecord(view.run, words), kinds = getOrMake(reported, site, () => []);
      if (!MARKS.includes(words[0]) || !scene.lanes.includes(site) || kinds.includes(words[0])) continue;
      shapes.push(shape("text", {x: x(event), y: y(site) - 5 - 9 * kinds.length, class: "mark mark-" + words[0]}, words[0]));
      kinds.push(words[0]);
    }
  }
  return shapes;
}

function siteOfRecord(run, words) {
  const cls = words[0] === "start" || words[0] === "commit" ? run.attempts.get(words[1]) : undefined;
  return cls === undefined ? words[2] : run.home.get(cls);
}
