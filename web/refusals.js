// What a line by which a program refuses a file speaks of, and what its rule means.

// {workload, catalogue: rule -> [meaning, help]; forms: first word of a line -> its form; others: line -> meaning}
const RULES = JSON.parse(byId("rules").textContent);
const FAULT_OF_WORKLOAD = /^workload: line (\d+): (.+)$/, FAULT_OF_CATALOGUE = /^catalogue: (?:top|(relation|fragment|class) (\d+)): (.+)$/;

// The rule of a workload with its meaning, in one line.
function meaningOf(rule) { return Object.hasOwn(RULES.workload, rule) ? `${rule}: ${RULES.workload[rule][0]}` : rule; }

// Where the fault is: {file, begin, end, line}, places in the file's text; the lines of the part where it is of a catalogue.
function placeOfFault(fault, catalogue, workload) {
  const [, line] = FAULT_OF_WORKLOAD.exec(fault) || [];
  if (line) return {file: "workload", ...linesAt(workload.split("\n"), +line - 1, +line)};
  const [, kind, number] = FAULT_OF_CATALOGUE.exec(fault) || [];
  if (!kind) return null;
  const lines = catalogue.split("\n"), isHead = x => new RegExp(`^\\s*\\[\\[\\s*${kind}\\s*\\]\\]`).test(x);
  const heads = lines.flatMap((x, k) => isHead(x) ? [k] : []), first = heads[number - 1];
  if (first === undefined) return null;
  const after = lines.findIndex((x, k) => k > first && /^\s*\[/.test(x));
  return {file: "catalogue", ...linesAt(lines, first, after < 0 ? lines.length : after)};
}

function linesAt(lines, first, end) {
  const before = lines.slice(0, first).join("\n").length + (first ? 1 : 0), text = lines.slice(first, end).join("\n").trimEnd();
  return {begin: before, end: before + text.length, line: first + 1, text};
}

// What the rule means, what helps, and the form of such a line: sentences, none where nothing is known. `text` is the line.
function explanationOf(fault, text) {
  if (Object.hasOwn(RULES.others, fault)) return [`It means: ${RULES.others[fault]}.`];
  const kind = fault.split(":")[0], rule = fault.split(": ").at(-1).split(" ")[0], known = RULES[kind];
  if (!["workload", "catalogue"].includes(kind) || !Object.hasOwn(known, rule)) return [];
  const [meaning, help] = known[rule], word = kind === "workload" ? (text || "").split(" ")[0] : "";
  return [`It means: ${meaning}.`, `What helps: ${help}.`, ...Object.hasOwn(RULES.forms, word) ? [`The form: ${RULES.forms[word]}`] : []];
}
