// All that a page shows of a run, from the report of `sdd1` and the text of `sdd1_inside`: what states.py of the package makes for the page
// that is written to a file.

const MOST_EVENTS = 100000, CATALOGUE = "catalogue.toml", WORKLOAD = "workload";

const linesOf = text => text.split("\n").slice(0, -1);

// The first line and the lines of the events. A number above 2^53 would be rounded, and is refused.
function readInside(text) {
  const lines = linesOf(text);
  if (lines.length > MOST_EVENTS + 1) throw new BadInput(`the run has ${lines.length - 1} events; a page shows at most ${MOST_EVENTS}`);
  const exact = (_, x) => {
    if (typeof x === "number" && !Number.isSafeInteger(x)) throw new BadInput("a time of this run is above 2^53, which a page can't show exactly");
    return x;
  };
  const mayBeLarge = /[:,[]-?\d{16}/.test(text);
  const [first, ...events] = lines.map(x => JSON.parse(x, mayBeLarge ? exact : undefined));
  if (first?.inside !== 1 || events.some((x, k) => x.event !== k + 1)) throw new BadInput("the text of the events isn't in the form that this page reads");
  return {first, lines: events};
}

// The lines of a report by their parts.
function readReport(report) {
  const lines = linesOf(report), at = lines.findIndex(x => x === "order" || x.startsWith("order "));
  if (at < 0) throw new BadInput("`run` printed no report");
  const made = {records: lines.slice(0, at), order: lines[at].split(" ").slice(1), replies: [], pending: [], copies: []};
  let rows = [];
  for (const line of lines.slice(at + 1)) {
    const [kind, name, how] = line.split(" "), rest = line.slice(kind.length + 1);
    if (kind === "reply") made.replies.push([name, rows = how === "ok" ? [] : [rest.slice(name.length + 1)]]);
    else if (kind === "copy") made.copies.push([`${name} ${how}`, rows = []]);
    else if (kind === "pending") made.pending.push(rest);
    else if (kind === "row") rows.push(rest);
  }
  return made;
}

// A workload's lines by their kinds.
function readParts(text) {
  const made = {rows: [], transactions: [], lists: [], events: []};
  let block = null;
  for (const line of linesOf(text)) {
    const kind = line.split(" ")[0];
    if (block) {
      block.push(line);
      if (line === "done") block = null;
    } else if (kind === "txn" || kind === "list") made[kind === "txn" ? "transactions" : "lists"].push(block = [line]);
    else if (kind === "row") made.rows.push(line);
    else if (kind !== "end") made.events.push(line);
  }
  return made;
}

function spelled({rows, transactions, lists, events}) {
  return [...rows, ...transactions.flat(), ...lists.flat(), ...events, "end"].map(x => x + "\n").join("");
}

// The results of all, or the first refusal in their order.
async function allOf(promises) {
  const ended = await Promise.allSettled(promises), refused = ended.find(x => x.status === "rejected");
  if (refused) throw refused.reason;
  return ended.map(x => x.value);
}

// The data modules at which a class reads.
function readingModules({reads = []}) {
  return [...new Set(reads.map(x => x.at))].sort((a, b) => a - b).map(n => "D" + n);
}

// What a page shows of the catalogue.
async function catalogueData(programs, catalogue) {
  const tell = word => programs.sdd1.tell([word, CATALOGUE], {[CATALOGUE]: catalogue});
  const [graph, table] = (await allOf([tell("graph"), tell("table")])).map(linesOf);
  const {relation = [], fragment = [], class: list = []} = readToml(catalogue);
  const columns = new Map(relation.map(x => [x.name, x.columns.map(c => c.name)])), keys = new Map(relation.map(x => [x.name, x.key]));
  return {
    graph, table,
    relations: relation.map(x => ({name: x.name, columns: columns.get(x.name), key: x.key})),
    fragments: fragment.map(x => ({name: x.name, relation: x.relation, key: columns.get(x.relation).indexOf(keys.get(x.relation))})),
    classes: list.map(x => ({name: x.name, at: "T" + x.tm, list: 0, reads: readingModules(x)})),
  };
}

// The classes of lists, with the number of their list.
function listClasses(lists) {
  return lists.flatMap((block, k) => block.map(x => x.split(" ")).filter(x => x[0] === "class").map(([, name, at]) => ({name, at, list: k + 1})));
}

// Refuses a text and a report that aren't of one run. Both programs get the same files, so this would be a fault of the page.
function judge(data) {
  const run = new Run(data), ofText = new Map([...run.copies].map(([name, copy]) => [name, copy.rows(run.count).map(x => x.row).filter(x => x !== null)]));
  run.stateAt(run.count);
  const ofReport = new Map(data.copies), names = new Set([...ofText.keys(), ...ofReport.keys()]);
  const spelledRows = rows => (rows || []).slice().sort().join("\n");
  const differs = [...names].find(x => spelledRows(ofText.get(x)) !== spelledRows(ofReport.get(x)));
  if (run.faults.length) throw new BadInput("the text of the events contradicts itself: " + run.faults[0]);
  if (differs) throw new BadInput(`the text of the events and the report aren't of one run: their copies of ${differs} differ`);
}

// What a page shows of a run. `known` is what it shows of the catalogue, or a promise of it: so all calls begin at once.
async function eventData(programs, catalogue, workload, known, how) {
  const files = {[CATALOGUE]: catalogue, [WORKLOAD]: workload};
  const inside = programs.inside.tell([CATALOGUE, WORKLOAD], files, how), report = programs.sdd1.tell(["run", CATALOGUE, WORKLOAD], files, {seconds: how?.seconds});
  const [ofCatalogue, reported, text] = await allOf([known, report, inside]), parts = readParts(workload);
  const data = {
    ...readInside(text), ...readReport(reported), ...ofCatalogue, events: parts.events, classes: [...ofCatalogue.classes, ...listClasses(parts.lists)],
    transactions: parts.transactions.map(x => ({name: x[0].split(" ")[1], at: x[0].split(" ")[2], lines: x.slice(1, -1)})),
  };
  judge(data);
  return data;
}

async function runData(programs, catalogue, workload, name, how) {
  return {name, ...await eventData(programs, catalogue, workload, catalogueData(programs, catalogue), how)};
}
