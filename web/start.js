// The page begins: the form, what its buttons do, and what its address asks for:
// #example=NAME or #run=PACKED, then do=inside, play, run, graph .., e=EVENT, theme=dark or light.

const FIRST = "rejected_read";
let view = null, programs = null, progress = null;

function stopAll(why) { for (const x of Object.values(programs)) x.stop(why); }

// ---- The run of an example is made ahead, while its text is read: so the first look at it needn't wait. ----

let ahead = null;                       // {name, data: a promise, isUnderWay}

function runAhead() {
  const name = exampleOf(...texts());
  if (!programs || ahead?.name === name) return;
  leaveAhead();
  if (!name) return;
  const mine = ahead = {name, isUnderWay: true, data: runData(programs, ...texts(), name, tellProgress)};
  mine.data.then(() => { mine.isUnderWay = false; }, () => { if (ahead === mine) ahead = null; });
}

// Ends a run that was made ahead and isn't what is asked for now.
function leaveAhead() {
  if (ahead?.isUnderWay) stopAll("another run was asked for");
  ahead = null;
}

function dataOfTexts() {
  if (ahead && ahead.name === exampleOf(...texts())) return ahead.data;
  leaveAhead();
  return runData(programs, ...texts(), nameOfRun(), tellProgress);
}

// Does what a button asks for, one thing at a time; what is refused is shown.
async function attempt(what, act) {
  if (progress.running) return;
  const begin = performance.now(), buttons = [...document.querySelectorAll(".acts button")];
  for (const made of buttons) made.disabled = true;
  say(what + " ..");
  try {
    const reported = await progress.during(what, act);
    if (isForm()) byId("status").textContent = `${reported} ${Math.round(performance.now() - begin)} ms`;
  } catch (fault) {
    if (fault instanceof Refused) sayRefusal(fault.message);
    else say(fault.message, true);
    if (!(fault instanceof BadInput)) throw fault;
  } finally {
    for (const made of buttons) made.disabled = false;
  }
}

const tellProgress = {tell: memory => progress.tell(memory)};

// What `sdd1` prints of the texts.
function print(word) {
  const [catalogue, workload] = texts(), files = {[CATALOGUE]: catalogue};
  if (word === "run" || word === "plain") files[WORKLOAD] = workload;
  return attempt("sdd1 " + word, async () => {
    leaveAhead();
    const reported = await programs.sdd1.tell([word, ...Object.keys(files)], files);
    showOutput(reported, word === "run" ? "report" : word + ".txt");
    return `sdd1 ${[word, ...Object.keys(files)].join(" ")}: ${plural(linesOf(reported).length, "line")},`;
  });
}

// The conflict graph as a drawing, and what the program prints of it.
function showGraph() {
  const [catalogue] = texts();
  return attempt("sdd1 graph", async () => {
    leaveAhead();
    const data = await catalogueData(programs, catalogue);
    showOutput(data.graph.join("\n") + "\n", "graph.txt");
    drawGraphOf(data, {graphByBlock: false});
    return `conflict graph of ${data.classes.length === 1 ? "1 class" : data.classes.length + " classes"},`;
  });
}

// `how` says what the colours of a matrix mean, which a button in it changes.
function drawGraphOf(data, how) {
  const box = byId("drawing"), names = data.classes.map(x => x.name), edges = tableEdges({data});
  box.textContent = "";
  box.hidden = false;
  if (!names.length) return box.append(element("p", "faint", "The catalogue has no classes."));
  if (names.length > MOST_NODES) return box.append(...graphMatrix(how, names, edges, null, () => drawGraphOf(data, how)));
  return box.append(graphDrawing(names, edges, null, new Set()), element("p", "faint", "An arrow leads from who reads to who writes it. " + PROTOCOL_WORDS));
}

// ---- The page of a run in place of the form. ----

function show(data, play, event) {
  document.body.classList.remove("starting");
  Object.assign(view, {play, selected: null, addressAt: at => `#${kept.source}&do=${play ? "play" : "inside"}&e=${at}`});
  view.opened.clear();
  view.load(data);
  byId("controls").hidden = !play;
  byId("save-workload").hidden = !!play;
  drawLegend(view);
  document.title = data.name + " - SDD-1";
  if (!history.state?.isRun) history.pushState({isRun: true}, "");       // so that the browser's way back leads to the form
  view.go(event ?? (play ? data.lines.length : 0));
  scrollTo(0, 0);
}

const lookInside = event => attempt("the run", async () => {
  await note(texts(), () => 0);
  show(await dataOfTexts(), null, event);
});

const playGame = (isAnew, event) => attempt("the run", async () => {
  const [catalogue, workload] = texts(), game = new Game(programs, catalogue, nameOfRun(), tellProgress.tell);
  leaveAhead();
  await game.begin(workload, isAnew);
  const tellAddress = () => { if (view.play?.game === game) history.replaceState(history.state, "", view.addressAt(view.event)); };
  const changed = it => note([catalogue, it.text()], tellAddress);
  const play = new PlayHere(view, game, changed, (what, act) => progress.during(what, act));
  show(game.data, play, event);
  play.take(await play.ask({do: "look"}));
  view.go(event ?? view.run.count);
});

// Back to the form; what was played stands in it.
function startAgain() {
  if (view.play) setTexts(view.play.game.catalogue, view.play.game.text());
  showForm();
  noteForm();
}

function showForm() {
  view.play = null;
  document.body.classList.add("starting");
  document.title = "SDD-1";
  say("");
}

function saveSchedule() { saveFile(WORKLOAD, texts()[1]); }

// ---- What the address asks for. ----

async function follow(wishes) {
  const event = wishes.has("e") ? +wishes.get("e") || 0 : undefined, act = wishes.get("do");
  try {
    const found = await textsOf(wishes);
    setTexts(...found || EXAMPLES[FIRST]);
    say("");
  } catch (fault) {
    setTexts(...EXAMPLES[FIRST]);
    return say(fault.message, true);
  }
  await noteForm();
  if (!act || act === "inside") runAhead();
  if (act === "inside") return lookInside(event);
  if (act === "play") return playGame(false, event);
  if (act === "graph") return showGraph();
  if (["run", "plain", "check", "table", "advise"].includes(act)) return print(act);
  return null;
}

// The browser's ways back and forth, and an address that is pasted into a page that stands there.
function followHistory(event) {
  const wishes = wishesOf(location.hash), hasTexts = ["run", "example", "kept"].some(x => wishes.has(x));
  if (event.state?.isRun) return isForm() ? follow(wishes) : null;
  if (!isForm() && !wishes.has("do")) return startAgain();
  if (!hasTexts) return null;
  leaveAhead();
  showForm();
  return follow(wishes);
}

// Keys of the form: those of the page of a run do nothing there.
function listenToFormKeys() {
  addEventListener("keydown", event => {
    if (!isForm()) return;
    event.stopImmediatePropagation();
    if (event.key === "Enter" && event.ctrlKey && !byId("look-inside").disabled) lookInside();
  }, true);
}

function start() {
  progress = new Progress(() => stopAll("stopped"));
  listenToFormKeys();
  listenToForm();
  view = begin(JSON.parse(byId("data").textContent), wishesOf(location.hash));
  if (!knowsMemory64()) {
    byId("cannot").hidden = false;
    for (const made of document.querySelectorAll(".acts")) made.hidden = true;
    return setTexts(...EXAMPLES[FIRST]);
  }
  programs = {sdd1: new Program("sdd1", "sdd1-module"), inside: new Program("sdd1_inside", "inside-module")};
  byId("look-inside").onclick = () => lookInside();
  byId("play-anew").onclick = () => playGame(true);
  byId("play").onclick = () => playGame(false);
  byId("show-graph").onclick = showGraph;
  byId("again").onclick = () => {
    if (view.play?.isBusy) return;
    if (history.state?.isRun) history.back();
    else startAgain();
  };
  byId("save-workload").onclick = saveSchedule;
  byId("form-theme").onclick = () => changeTheme(view);
  for (const made of document.querySelectorAll("[data-words]")) made.onclick = () => print(made.dataset.words);
  addEventListener("popstate", followHistory);
  return follow(wishesOf(location.hash));
}

start();
