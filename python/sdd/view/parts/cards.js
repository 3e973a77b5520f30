// A card for each site: what it has, and its in-tray, with a lane for each link that ends there.

const MOST_PACKETS = 6, MOST_ROWS = 5;

function packetChip(view, id, place) {
  const packet = view.run.packets[id], made = chip(view, packet.link, packet.n, labelOf(view.run, packet));
  if (packet.put === view.event) made.classList.add("fresh");
  made.prepend(element("i", "", place));
  made.dataset.packet = id;
  made.title = `${describePacket(view.run, packet)}\nplace ${place} in flight from ${packet.from} to ${packet.to}`;
  if (view.selected?.packet === id) made.classList.add("selected");
  made.onclick = () => view.select({packet: id, link: packet.link, n: packet.n});
  made.ondblclick = () => view.play?.act("deliver", id);
  return made;
}

function chip(view, link, n, label) {
  const kind = n ? view.run.message(link, n)?.kind || "none" : "ack";
  return element("button", `chip k-${kind}`, label);
}

// A message that isn't in flight any more: in a pipe, or processed.
function messageChip(view, link, n) {
  const made = chip(view, link, n, messageLabel(view.run, link, n));
  made.title = describeMessage(view.run, link, n);
  if (view.selected && !view.selected.packet && view.selected.link === link && view.selected.n === n) made.classList.add("selected");
  made.onclick = () => view.select({link, n});
  return made;
}

function trayOf(view, site, line, isShort) {
  const tray = element("div", "tray");
  tray.append(element("div", "tray-head", "in flight to " + site));
  for (const from of view.run.sendersTo(site)) {
    const lane = laneOf(view, from, site, line);
    if (!isShort || lane.querySelector(".chip, .state")) tray.append(lane);
  }
  return tray;
}

function laneOf(view, from, site, line) {
  const key = from + ">" + site, link = view.state.links.get(key), lane = element("div", "lane");
  lane.dataset.link = key;
  lane.title = link ? `${from} to ${site}: ${link.sent} sent, ${link.delivered} received, ${link.sent - link.acked} unacknowledged` : `${from} to ${site}: unused so far`;
  lane.append(view.play ? view.play.linkButton(from, site, link) : element("span", "from", from));
  const flight = link ? link.flight : [], most = view.opened.has(key) ? flight.length : MOST_PACKETS;
  flight.slice(0, most).forEach((id, k) => lane.append(packetChip(view, id, k + 1)));
  if (flight.length > most) lane.append(button("+" + (flight.length - most), "more", () => view.open(key)));
  if (link && link.early.length) {
    const early = link.early.slice().sort((a, b) => a - b).join(", ");
    lane.append(element("span", "state", `kept ${early}; ${link.delivered + 1} is missing`));
  }
  const [, a, b] = line && line.took !== undefined ? line.do.split(" ") : [];
  if (a === from && b === site) lane.classList.add("hot");
  return lane;
}

function siteCard(view, site, line, isShort = false) {
  const card = element("div", "site " + site[0]), body = element("div", "body"), head = element("h2", "", site);
  card.id = "site-" + site;
  if ((line?.sites || []).some(reported => reported.at === site)) card.classList.add("touched");
  body.append(head);
  if (site[0] === "D") dataModule(view, site, line, card, head, body);
  else transactionModule(view, site, card, head, body);
  const tray = trayOf(view, site, line, isShort);
  card.append(...(site[0] === "D" ? [tray, body] : [body, tray]));
  return card;
}

// Whether a module is down, and the button that takes it down or up; U never is.
function markDown(view, site, isDown, card, head) {
  if (isDown) {
    card.classList.add("down");
    head.append(element("span", "state gone", "DOWN"));
  }
  if (view.play) head.append(view.play.downButton(site, isDown));
}

function transactionModule(view, site, card, head, body) {
  const reported = view.state.site(site), number = +site.slice(1) || 0;
  head.append(element("small", "", site === "U" ? "undeclared transactions" : "transaction module"));
  if (reported.hold) {
    const mark = element("span", "state", "ON HOLD");
    mark.title = "An undeclared transaction wants to run: what runs here comes to its end, and nothing new starts.";
    head.append(mark);
  }
  if (site !== "U") markDown(view, site, reported.down, card, head);
  const clock = element("div", "faint", `clock ${reported.clock}; the next start gets ${(reported.clock + 1) * 64 + number}`);
  clock.title = `A timestamp is the ticks of the clock times 64, and the number of the module, here ${number}.`;
  body.append(clock);
  const classes = site === "U" ? ["-"] : view.run.classesOf(site, view.state.list);
  for (const cls of view.run.classes) {
    const isBusy = view.state.queue(cls).length && view.run.home.get(cls) === site;
    if (isBusy && !classes.includes(cls)) classes.push(cls);
  }
  for (const cls of classes) body.append(classRow(view, site, reported, cls));
  for (const [cls, from, time] of reported.asks || []) {
    body.append(element("div", "state", `${from} asks: has ${cls} passed ${time}? Not yet.`));
  }
  if (view.play && site !== "U") body.append(view.play.tickControl(site));
}

function classRow(view, site, reported, cls) {
  const row = element("div", "class-row"), active = (reported.active || []).find(x => x.class === cls);
  const queue = view.state.queue(cls), rest = active ? queue.slice(1) : queue;
  row.append(element("b", "", className(cls)));
  if (active) row.append(attemptOf(active), element("span", "faint", `${active.phase}; waits for ${(active.lacks || []).join(" ")}`));
  else if (site === "U" && reported.phase !== "idle") row.append(element("span", "faint", `${reported.phase}; waits for ${(reported.lacks || []).join(" ")}`));
  else row.append(element("span", "faint", "idle"));
  const key = "queue " + cls, most = view.opened.has(key) ? rest.length : 4;
  rest.slice(0, most).forEach(name => row.append(element("span", "queued", name)));
  if (rest.length > most) row.append(button("+" + (rest.length - most), "more", () => view.open(key)));
  row.append(...hangingMarks(view, cls));
  return row;
}

function attemptOf({txn, time}) {
  const made = element("span", "attempt", `${txn} @${time}`);
  made.title = `${txn} runs with timestamp ${time}`;
  return made;
}

function dataModule(view, site, line, card, head, body) {
  const reported = view.state.site(site);
  head.append(element("small", "", "data module"));
  markDown(view, site, reported.down, card, head);
  body.append(...pipeRows(view, site, reported, line));
  for (const copy of view.run.copiesAt(site)) body.append(copyRows(view, copy));
}

function pipeRows(view, site, reported, line) {
  const rows = [], quiet = [], heads = reported.heads || [];
  const wanted = new Set(heads.flatMap(head => head.waits || []).map(([cls]) => cls));
  const changed = new Set((line?.pipes || []).filter(pipe => pipe.at === site).map(pipe => pipe.class));
  for (const cls of [...view.run.classes, "-"]) {
    const pipe = view.state.pipe(site, cls);
    if (!pipe && !wanted.has(cls)) continue;
    const isQuiet = pipe && !pipe.waiting.length && !wanted.has(cls) && !changed.has(cls);
    if (isQuiet && view.run.classes.length > 3) quiet.push(`${className(cls)} ${pipe.passed}`);
    else rows.push(pipeRow(view, site, cls, pipe, heads.find(head => head.class === cls), wanted.has(cls), line));
  }
  if (quiet.length) rows.push(element("div", "faint", "passed: " + shortened(quiet, 8).join(", ")));
  return rows;
}

function pipeRow(view, site, cls, pipe, head, isWanted, line) {
  const row = element("div", isWanted ? "pipe wanted" : "pipe"), messages = element("span", "messages");
  const link = view.run.home.get(cls) + ">" + site;
  const came = new Set((line?.pipes || []).filter(x => x.at === site && x.class === cls).flatMap(x => x.in || []));
  row.dataset.pipe = site + " " + cls;
  row.title = `The pipe of class ${className(cls)} at ${site}: its messages are processed in order, the head (at the right) first`;
  const passed = pipe && pipe.passed !== null ? "passed " + pipe.passed : "nothing yet";
  row.append(element("span", "pipe-class", className(cls)), element("span", "passed", passed), messages);
  if (pipe && pipe.passed !== null) row.children[1].title = `No change of ${className(cls)} with a time up to ${pipe.passed} is still to come to ${site}.`;
  for (const n of (pipe ? pipe.waiting : []).slice(-MOST_PACKETS * 2).reverse()) {
    const made = messageChip(view, link, n);
    if (came.has(n)) made.classList.add("fresh");
    messages.append(made);
  }
  if (head) row.append(element("span", "state why", whyWords(head)));
  else if (pipe && pipe.last) messages.append(processedLast(view, site, link, pipe));
  return row;
}

function whyWords(head) {
  if (head.waits) return "waits for " + shortened(head.waits.map(([cls, time]) => `${className(cls)} to pass ${time}`), 2).join(", ");
  return "held by the read of " + shortened(head.held.map(className), 3).join(", ");
}

// Without what was processed last, a read that was rejected would leave nothing to look at.
function processedLast(view, site, link, pipe) {
  const made = messageChip(view, link, pipe.last), reported = view.run.message(link, pipe.last);
  const records = view.run.recordsAt.get(pipe.lastAt) || [];
  const isRejected = records.some(({words}) => words[0] === "reject" && words[1] === reported?.txn && words[2] === site);
  made.classList.add(isRejected ? "rejected" : "processed");
  made.title = `${isRejected ? "rejected" : "processed last"}, at event ${pipe.lastAt}: ${made.title}`;
  return made;
}

function copyRows(view, copy) {
  const key = copy.at + " " + copy.fragment, most = view.opened.has(key) ? Infinity : MOST_ROWS;
  const made = element("div", "copy"), rows = copy.rows(view.event, most), count = copy.count(view.event);
  made.dataset.copy = key;
  const columns = view.run.columnsOf(copy.fragment);
  made.append(element("b", "", copy.fragment), element("span", "faint columns-of", columns.join(" ")));
  for (const {key: of, row, isNew} of rows) {
    const shown = element("span", isNew ? "row changed" : "row", row === null ? `${of} deleted` : row);
    if (row !== null) shown.title = valuesOf(row).map((value, k) => `${columns[k]} ${value}`).join(", ");
    made.append(shown);
  }
  const shown = rows.filter(({row}) => row !== null).length;
  if (count > shown) made.append(button(`${count - shown} more`, "more", () => view.open(key)));
  if (!count) made.append(element("span", "faint", "no rows"));
  return made;
}
