// What stands beside the map: what happens, what is selected, the serial order and the trace.

const MOST_NAMES = 60, RECORDS_AROUND = 40, RECORD_STYLES = {wait: "bad ", reject: "gone "};

function drawHeader(view) {
  const line = view.run.lineAt(view.event);
  byId("name").textContent = view.run.data.name;
  byId("event").textContent = `event ${view.event} of ${view.run.count}`;
  byId("do").textContent = line ? line.do : "before the first event";
  byId("of").textContent = !line ? "" : line.round ? `${view.run.data.events[line.of - 1]}, round ${line.round}` : `line ${line.of} of the schedule`;
  byId("faults").textContent = view.run.faults.length ? "The text contradicts itself: " + view.run.faults[0] : "";
}

function drawSentences(view) {
  const box = byId("sentences"), line = view.run.lineAt(view.event);
  box.textContent = "";
  if (!line) {
    const what = view.run.count ? "Nothing has happened yet. The right arrow key goes to the next event, End to the last one."
      : view.play ? "Nothing has happened yet. Submit a transaction to begin." : "Nothing happens in this run: its schedule is empty.";
    return box.append(element("p", "", what));
  }
  for (const {style, text} of sentencesOf(view, line)) box.append(element("p", style, text));
}

function drawSelection(view) {
  const box = byId("selection"), chosen = view.selected;
  box.textContent = "";
  box.hidden = !chosen;
  if (!chosen) return;
  if (chosen.cell) return drawCell(view, box, chosen.cell);
  if (chosen.txn) return drawTransaction(view, box, chosen.txn);
  if (chosen.site) return box.append(element("h3", "", chosen.site), element("p", "faint", `The card of ${chosen.site} stands below the matrix.`));
  const packet = view.run.packets[chosen.packet], link = view.state.links.get(chosen.link);
  box.append(element("h3", "", packet ? "packet" : "message"));
  box.append(element("p", "", packet ? describePacket(view.run, packet) : describeMessage(view.run, chosen.link, chosen.n)));
  const reported = chosen.n ? view.run.message(chosen.link, chosen.n) : null;
  if (reported?.txn) box.append(...transactionText(view, reported.txn.split("#")[0]));
  if (packet && eventLine(view.state, "deliver", chosen.packet)) box.append(eventsOf(view, chosen.packet));
  if (link) box.append(element("p", "faint", `${chosen.link.replace(">", " to ")}: ${link.sent} sent, ${link.delivered} received, ${link.sent - link.acked} unacknowledged`));
}

function transactionText(view, name) {
  const reported = view.run.transactions.get(name);
  return reported ? [element("pre", "", [`txn ${name} ${reported.at}`, ...reported.lines, "done"].join("\n"))] : [];
}

// The lines that a schedule would have for this packet; buttons where the page is served.
function eventsOf(view, id) {
  const box = element("p", "events");
  for (const verb of ["deliver", "lose", "repeat"]) {
    const line = eventLine(view.state, verb, id);
    box.append(view.play ? button(line, "", () => view.play.act(verb, id)) : element("code", "", line));
  }
  return box;
}

function drawCell(view, box, [site, other]) {
  for (const key of [site + ">" + other, other + ">" + site]) {
    const [from, to] = key.split(">"), flight = view.state.flight(key), list = element("div", "list");
    const head = element("h3", "", `${from} to ${to}: ${flight.length} in flight`), most = view.opened.has(key) ? flight.length : 20;
    flight.slice(0, most).forEach((id, k) => list.append(packetChip(view, id, k + 1)));
    if (flight.length > most) list.append(button("+" + (flight.length - most), "more", () => view.open(key)));
    if (view.play) head.append(view.play.linkButton(from, to, view.state.links.get(key)));
    box.append(head, list);
  }
}

function drawOrder(view) {
  const box = byId("order"), names = view.run.data.order, isDone = name => view.run.commits.get(name) <= view.event;
  const most = view.opened.has("order") ? names.length : MOST_NAMES;
  if (view.isDrawn("order", names.filter(isDone).length, most)) return;
  box.textContent = "";
  for (const name of names.slice(0, most)) box.append(element("span", isDone(name) ? "placed done" : "placed", name));
  if (names.length > most) box.append(button("+" + (names.length - most), "more", () => view.open("order")));
  if (!names.length) box.append(element("span", "faint", "no transaction commits in this run"));
}

function drawTrace(view) {
  const box = byId("trace"), run = view.run, upTo = run.recordsUpTo(view.event);
  const first = Math.max(0, upTo - RECORDS_AROUND), last = Math.min(run.records.length, upTo + RECORDS_AROUND);
  let current = null;
  if (view.isDrawn("trace", upTo, run.recordsAt.has(view.event))) return;
  box.textContent = "";
  if (first) box.append(element("div", "later", plural(first, "record") + " before"));
  for (let k = first; k < last; k++) {
    const record = run.records[k], style = record.event === view.event ? "now" : record.event > view.event ? "later" : "";
    const row = element("div", (RECORD_STYLES[record.words[0]] || "") + style, record.text);
    row.onclick = () => view.go(record.event);
    box.append(row);
    if (k === upTo - 1) current = row;
  }
  if (last < run.records.length) box.append(element("div", "later", plural(run.records.length - last, "record") + " more"));
  if (current) box.scrollTop = current.offsetTop - box.offsetTop - box.clientHeight * 0.55;
}
