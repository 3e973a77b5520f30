// The page: one event is shown at a time, and all its parts are drawn for it.

class View {
  constructor(data) {
    Object.assign(this, {selected: null, opened: new Set(), graphByBlock: false, play: null, drawn: new Map()});
    this.load(data);
  }

  load(data) {
    this.run = new Run(data);
    this.drawn.clear();
    this.event = 0;
    this.state = this.run.stateAt(0);
  }

  go(event) {
    event = Math.max(0, Math.min(this.run.count, event));
    if (event === this.event + 1) this.state.apply(this.run.lines[event - 1]);
    else if (event !== this.event) this.state = this.run.stateAt(event);
    if (event !== this.event && (this.selected?.packet !== undefined || this.selected?.n)) this.selected = null;
    this.event = event;
    history.replaceState(history.state, "", this.addressAt(event));
    this.draw();
  }

  addressAt(event) { return "#e=" + event; }

  select(what) {
    this.selected = what;
    this.draw();
  }

  // Whether a part of the page stands there as it would be drawn now: most events change little, and to draw all of the page
  // anew takes longer than a key may.
  isDrawn(part, ...key) {
    const text = key.join();
    if (this.drawn.get(part) === text) return true;
    this.drawn.set(part, text);
    return false;
  }

  // Shows all of what stands cut short: the packets of a link, the rows of a copy, the serial order.
  open(key) {
    this.opened.add(key);
    this.draw();
  }

  nextRecord(step) {
    const events = this.run.records, k = this.run.recordsUpTo(step > 0 ? this.event : this.event - 1);
    if (step > 0) return k < events.length ? events[k].event : this.run.count;
    return k > 0 ? events[k - 1].event : 0;
  }

  draw() {
    const focused = document.activeElement?.dataset?.packet;
    drawHeader(this);
    drawSentences(this);
    drawSelection(this);
    drawTimeline(this);
    drawOrder(this);
    drawAnswers(this);
    drawTrace(this);
    drawGraph(this);
    this.play?.draw();
    drawPast(this);
    drawMap(this);
    if (focused !== undefined) document.querySelector(`[data-packet="${focused}"]`)?.focus();
  }
}

const LEGEND = [["READ", "READ"], ["SHIP", "asks for rows"], ["ROWS", "rows, answers"], ["WRITE", "WRITE"], ["NULL", "NULL: has passed"],
  ["ASK", "ASK"], ["REJECT", "REJECT"], ["HOLD", "HOLD .. RELEASE"], ["ack", "ack"]];

function drawLegend(view) {
  byId("legend").textContent = "";
  for (const [kind, text] of LEGEND) {
    if (kind !== "HOLD" || view.run.usesU) byId("legend").append(element("span", "chip k-" + kind, text));
  }
}

function changeTheme(view) {
  document.documentElement.classList.toggle("dark");
  view.draw();
}

function listenToKeys(view) {
  const keys = {
    ArrowRight: () => view.go(view.event + 1), j: () => view.go(view.event + 1),
    ArrowLeft: () => view.go(view.event - 1), k: () => view.go(view.event - 1),
    n: () => view.go(view.nextRecord(1)), p: () => view.go(view.nextRecord(-1)),
    PageDown: () => view.go(view.event + 25), PageUp: () => view.go(view.event - 25),
    Home: () => view.go(0), End: () => view.go(view.run.count),
    t: () => changeTheme(view), Escape: () => view.select(null), ...roomKeys(view),
  };
  addEventListener("keydown", event => {
    if (event.target.matches("input, textarea, select") || event.altKey) return;
    const act = event.ctrlKey || event.metaKey ? keyOfUndo(view, event) : byId("help").open ? helpKeys[event.key] : keys[event.key] || view.play?.keys[event.key];
    if (event.key === " " && event.target.matches("button")) return;           // the button is pressed
    if (!act) return;
    event.preventDefault();
    act();
  });
}

// While keys and words are shown the others rest; Escape closes them by itself.
const helpKeys = {"?": () => byId("help").close()};

// Ctrl-Z takes a change of a served page back, Ctrl-Y or Ctrl-Shift-Z does it again.
function keyOfUndo(view, event) {
  const key = event.key.toLowerCase();
  return key === "z" ? view.play?.keys[event.shiftKey ? "y" : "u"] : key === "y" ? view.play?.keys.y : undefined;
}

function listenToButtons(view) {
  byId("first").onclick = () => view.go(0);
  byId("back").onclick = () => view.go(view.event - 1);
  byId("next").onclick = () => view.go(view.event + 1);
  byId("last").onclick = () => view.go(view.run.count);
  byId("next-record").onclick = () => view.go(view.nextRecord(1));
  byId("theme").onclick = () => changeTheme(view);
  addEventListener("resize", () => view.draw());
}

// What stands behind # in the address: e=EVENT, theme=dark or light, and in a served page token=TOKEN.
function wishesOf(address) { return new URLSearchParams(address.slice(1)); }

function begin(data, wishes) {
  const view = new View(data), isDark = wishes.get("theme") || (matchMedia("(prefers-color-scheme: dark)").matches ? "dark" : "light");
  document.documentElement.classList.toggle("dark", isDark === "dark");
  drawLegend(view);
  listenToKeys(view);
  listenToButtons(view);
  listenToTimeline(view);
  listenToRoom(view);
  return view;
}
