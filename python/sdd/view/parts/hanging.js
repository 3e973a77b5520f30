// On which modules that are down a class may hang, and through which classes: by the rules of `sdd needs`
// (docs/FORMATS.md). sdd/design/hanging.py finds the same.

function waitsOf(run) {
  const waits = new Map(run.classes.map(cls => [cls, []]));
  for (const edge of run.tableEdges ??= tableEdges(run)) {
    const writers = waits.get(edge.reader);
    if (edge.protocol !== "P1" && !writers.includes(edge.writer)) writers.push(edge.writer);
  }
  return waits;
}

// What an attempt of a class needs besides its modules, or the passing of its writes: pairs of another task and why.
function neededSteps(run, [what, cls]) {
  const steps = what === "passing" ? [[["attempt", cls], ""]] : run.waits.get(cls).map(other => [["passing", other], `${cls} waits for ${other}`]);
  const meets = reader => what === "passing" || run.readsOf.get(reader).some(dm => run.readsOf.get(cls).includes(dm));
  const behind = what === "passing" ? "" : `a read of ${cls} queues behind its own writes: `;
  for (const [reader, others] of run.waits) {
    if (!others.includes(cls) || !meets(reader)) continue;
    for (const other of others) steps.push([["passing", other], `${behind}${reader} waits for ${other}, and may hold back what ${cls} writes`]);
  }
  return steps;
}

function whyUndeclared(at) { return at[0] === "T" ? `${at} has to hold for an undeclared transaction` : `an undeclared transaction reads at ${at}`; }

// The modules at which an attempt of the class is under way, each with what it does there, in words.
function modulesOf(run, cls) {
  const home = run.homeOf.get(cls);
  return [[home, `${cls} is at home at ${home}`], ...run.readsOf.get(cls).map(dm => [dm, `${cls} reads at ${dm}`])];
}

// Of each of these modules that an attempt of the class may need the shortest way there, in words.
function waysTo(run, cls, down) {
  if (cls === "-") return new Map(down.map(at => [at, whyUndeclared(at)]));
  run.waits ??= waitsOf(run);
  run.homeOf ??= new Map(run.data.classes.map(one => [one.name, one.at]));
  run.readsOf ??= new Map(run.data.classes.map(one => [one.name, one.reads || []]));
  const found = new Map(), reached = new Map([["attempt " + cls, []]]), todo = [["attempt", cls]];
  for (const task of todo) {
    const way = reached.get(task.join(" ")), modules = task[0] === "attempt" ? modulesOf(run, task[1]) : [];
    for (const [at, why] of modules) if (down.includes(at) && !found.has(at)) found.set(at, [...way, why].join("; "));
    for (const [other, why] of neededSteps(run, task)) {
      if (reached.has(other.join(" "))) continue;
      reached.set(other.join(" "), why ? [...way, why] : way);
      todo.push(other);
    }
  }
  return found;
}

// Marks of a class with transactions. The table is that of the first list: of later ones nothing is said.
function hangingMarks(view, cls) {
  const down = [...view.run.tms, ...view.run.dms].filter(at => view.state.site(at).down);
  if (!down.length || !view.state.queue(cls).length || view.state.list) return [];
  return [...waysTo(view.run, cls, down)].map(([at, why]) => {
    const mark = element("span", "state gone", "may hang on " + at);
    mark.title = `${at} is down: ${why}.`;
    return mark;
  });
}
