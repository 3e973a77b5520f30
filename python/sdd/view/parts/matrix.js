// Many sites: a matrix of transaction modules by data modules. Each cell has two halves: what flies to the data
// module at the left, what comes from it at the right, each with its most telling kind and how many there are.

const RANKS = ["ack", "NULL", "ASK", "RELEASE", "DONE", "HELD", "HOLD", "SHIP", "FETCH", "REDUCE", "ROWS", "VALUES", "REDUCED", "READY", "READ", "WRITE", "REJECT"];
const SHORT = {ack: "a", NULL: "N", ASK: "A", SHIP: "S", ROWS: "RS", READY: "RY", READ: "R", WRITE: "W", REJECT: "RJ",
  FETCH: "F", VALUES: "V", REDUCE: "RE", REDUCED: "RD", HOLD: "H", HELD: "HD", DONE: "D", RELEASE: "RL"};

function matrixOf(view, line) {
  const table = element("table", "matrix"), head = element("tr"), run = view.run;
  const users = run.usesU ? ["U"] : [], rows = [...run.tms, ...users], columns = [...run.dms, ...users];
  head.append(element("th", "", "T to D, D to T"));
  for (const site of columns) head.append(columnHead(view, site, line));
  table.append(head);
  for (const site of rows) {
    const row = element("tr");
    row.append(rowHead(view, site, line));
    for (const other of columns) row.append(site === other ? element("td") : cellOf(view, site, other, line));
    table.append(row);
  }
  return table;
}

function siteHead(view, site, line) {
  const head = element("th");
  head.append(button(site, "site-name", () => view.select({site})));
  if ((line?.sites || []).some(reported => reported.at === site)) head.classList.add("touched");
  if (view.selected?.site === site) head.classList.add("selected");
  return head;
}

function columnHead(view, site, line) {
  const head = siteHead(view, site, line), reported = view.state.site(site);
  if (site === "U") return head;
  let waiting = 0;
  for (const cls of [...view.run.classes, "-"]) waiting += view.state.pipe(site, cls)?.waiting.length || 0;
  const heads = (reported.heads || []).length;
  head.append(element("div", "small", waiting ? `${waiting} in pipes` : ""));
  if (heads) head.append(element("div", "state", heads + (heads > 1 ? " wait" : " waits")));
  if (reported.down) head.append(element("div", "state gone", "DOWN"));
  return head;
}

function rowHead(view, site, line) {
  const head = siteHead(view, site, line), reported = view.state.site(site);
  if (site === "U") {
    head.append(element("span", "small", reported.phase));
    return head;
  }
  let queued = 0;
  for (const cls of view.run.classes) if (view.run.home.get(cls) === site) queued += view.state.queue(cls).length;
  const active = (reported.active || []).length;
  const text = `clock ${reported.clock}, ${active} run, ${queued - active} wait`;
  head.append(element("span", "small wide", " " + text));
  head.title = text;
  if (reported.hold) head.append(element("b", "state", " HOLD"));
  if (reported.down) head.append(element("b", "state gone", " DOWN"));
  return head;
}

function cellOf(view, site, other, line) {
  const cell = element("td", site === "U" || other === "U" ? "users" : ""), halves = element("div", "halves");
  const [, from, to] = line && line.took !== undefined ? line.do.split(" ") : [];
  for (const [a, b] of [[site, other], [other, site]]) {
    halves.append(halfOf(view, a + ">" + b));
    if (from === a && to === b) cell.classList.add("hot");
  }
  if (view.selected?.cell?.join() === [site, other].join()) cell.classList.add("selected");
  cell.dataset.cell = site + " " + other;
  cell.append(halves);
  cell.onclick = () => view.select({cell: [site, other]});
  return cell;
}

function halfOf(view, key) {
  const half = element("span"), flight = view.state.flight(key);
  if (!flight.length) return half;
  const kinds = flight.map(id => view.run.kindOf(view.run.packets[id]));
  const top = kinds.reduce((a, b) => (RANKS.indexOf(b) > RANKS.indexOf(a) ? b : a));
  const mark = element("span", `mini k-${top}`, (SHORT[top] || "?") + (flight.length > 1 ? "\u00b7" + flight.length : ""));
  mark.title = key.replace(">", " to ") + ": " + shortened(flight.map(id => labelOf(view.run, view.run.packets[id])), 12).join(", ");
  half.append(mark);
  return half;
}
