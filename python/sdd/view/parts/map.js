// The map: cards in two columns with a wire for each link, or a matrix where there are more sites.

function drawMap(view) {
  const map = byId("map"), line = view.run.lineAt(view.event), top = map.scrollTop;
  map.textContent = "";
  map.className = view.run.tms.length + view.run.dms.length <= 4 ? "roomy" : "";
  if (view.run.isSmall) map.append(columnsOf(view, line));
  else map.append(matrixOf(view, line), cardsBelow(view, line));
  map.scrollTop = top;
  if (view.shown !== view.event) map.querySelector(".hot, .touched")?.scrollIntoView({block: "nearest"});
  view.shown = view.event;
  drawWires(view, map, line);
  view.play?.placeMenu(map);
}

function columnsOf(view, line) {
  const columns = element("div", "columns"), left = element("div", "column"), right = element("div", "column");
  for (const tm of view.run.tms) left.append(siteCard(view, tm, line));
  if (view.run.usesU) left.append(siteCard(view, "U", line));
  for (const dm of view.run.dms) right.append(siteCard(view, dm, line));
  columns.append(left, element("div", "column"), right);
  return columns;
}

// Below a matrix stand the cards of the site that is selected, and of those that took part, at most two.
function cardsBelow(view, line) {
  const below = element("div", "below"), shown = view.selected?.site ? [view.selected.site] : [];
  const others = [...(line?.sites || []).map(reported => reported.at), ...(line ? line.do.split(" ").slice(1, 3) : [])];
  for (const site of others) if (view.run.sites().includes(site) && !shown.includes(site)) shown.push(site);
  for (const site of shown.slice(0, 2)) below.append(siteCard(view, site, line, true));
  return below;
}

// All places are read before the first shape is written, since each change between two readings costs a layout.
function drawWires(view, map, line) {
  const origin = map.getBoundingClientRect(), left = map.scrollLeft - origin.left, top = map.scrollTop - origin.top;
  const place = node => {
    const r = node.getBoundingClientRect();
    return {left: r.left + left, right: r.right + left, top: r.top + top, bottom: r.bottom + top};
  };
  const size = {width: map.scrollWidth - 4, height: map.scrollHeight - 4};
  const wires = view.run.isSmall ? wirePaths(view, map, place) : [], waits = waitPaths(view, map, place);
  for (const [id, paths] of [["wires", wires], ["waits", waits]]) {
    const drawing = shape("svg", {id, ...size});
    drawing.append(arrowHeads());
    for (const path of paths) drawing.append(shape("path", {fill: "none", ...path}));
    map.append(drawing);
  }
}

function arrowHeads() {
  const made = shape("defs", {});
  for (const [id, fill, size] of [["arrow-hot", "var(--bad)", 6], ["arrow-now", "var(--new)", 5], ["arrow-dim", "var(--faint)", 6]]) {
    const marker = shape("marker", {id, viewBox: "0 0 8 8", refX: 7, refY: 4, markerWidth: size, markerHeight: size, orient: "auto"});
    marker.append(shape("path", {d: "M0,0L8,4L0,8z", fill}));
    made.append(marker);
  }
  return made;
}

function wirePaths(view, map, place) {
  const cards = new Map(), paths = [];
  for (const card of map.querySelectorAll(".site")) cards.set(card.id.slice(5), place(card));
  for (const lane of map.querySelectorAll(".lane")) {
    const [from, to] = lane.dataset.link.split(">"), a = cards.get(from), b = cards.get(to), at = place(lane);
    const x1 = from[0] === "D" ? a.left : a.right, y1 = a.bottom - 9, y2 = (at.top + at.bottom) / 2;
    const x2 = to[0] === "D" ? b.left : b.right, isBent = from[0] !== "D" && to[0] !== "D";
    const bend = isBent ? 46 : (x2 - x1) / 2, d = `M${x1},${y1}C${x1 + bend},${y1} ${isBent ? x2 + bend : x2 - bend},${y2} ${x2},${y2}`;
    const isHot = lane.classList.contains("hot"), isBusy = view.state.flight(lane.dataset.link).length > 0;
    const path = {d, stroke: isHot ? "var(--new)" : isBusy ? "var(--faint)" : "var(--line)", "stroke-width": isHot ? 2.5 : isBusy ? 1.6 : 0.7};
    if (isHot || isBusy) path["marker-end"] = isHot ? "url(#arrow-now)" : "url(#arrow-dim)";
    paths.push(path);
  }
  return paths;
}

// From the head of a pipe that waits to the pipes for which it waits; dashed from a WRITE to the READ that holds it.
function waitPaths(view, map, place) {
  const pipes = new Map(), paths = [];
  for (const row of map.querySelectorAll("[data-pipe]")) pipes.set(row.dataset.pipe, place(row));
  for (const dm of view.run.dms) {
    for (const head of view.state.site(dm).heads || []) {
      const a = pipes.get(dm + " " + head.class), others = (head.waits || []).map(([cls]) => cls).concat(head.held || []);
      others.filter(cls => a && pipes.has(dm + " " + cls)).forEach((cls, k) => {
        const b = pipes.get(dm + " " + cls), x = a.right - 46, y1 = a.top + 12, y2 = b.top + 12, bend = a.right - 10 + 6 * (k % 3);
        const path = {d: `M${x},${y1}C${bend},${y1} ${bend},${y2} ${x},${y2}`, stroke: "var(--bad)", "stroke-width": 2, "marker-end": "url(#arrow-hot)"};
        paths.push(head.held ? {...path, "stroke-dasharray": "4 3"} : path);
      });
    }
  }
  return paths;
}
