// The timeline: a bar for each event, as high as what follows from it; to click, and to drag.

const HEIGHTS = {reject: 34, lose: 30, down: 30, up: 30, commit: 28, wait: 24, start: 20, apply: 18, answer: 16, submit: 14};
const BARS = {reject: "--gone", lose: "--gone", down: "--gone", up: "--faint", commit: "--hold", wait: "--bad", start: "--asks", apply: "--write", answer: "--rows"};

// The most telling thing of an event.
function kindOfEvent(run, line) {
  const words = (run.recordsAt.get(line.event) || []).map(record => record.words[0]);
  return ["reject", "wait", "commit", "apply", "answer", "start"].find(kind => words.includes(kind)) || line.do.split(" ")[0];
}

function placeOnStrip(view, event, width) { return 8 + (width - 16) * event / Math.max(1, view.run.count); }

function drawTimeline(view) {
  const canvas = byId("timeline"), width = canvas.clientWidth, height = canvas.clientHeight, ratio = devicePixelRatio || 1;
  const key = [width, height, ratio, document.documentElement.className].join();
  if (view.strip?.key !== key || view.strip.run !== view.run) view.strip = {key, run: view.run, canvas: stripOf(view, width, height, ratio)};
  canvas.width = width * ratio;
  canvas.height = height * ratio;
  const pen = canvas.getContext("2d"), x = placeOnStrip(view, view.event, width);
  pen.drawImage(view.strip.canvas, 0, 0);
  pen.scale(ratio, ratio);
  pen.fillStyle = colourOf("--new");
  pen.fillRect(x - 1, 2, 2, height - 4);
  pen.beginPath();
  pen.moveTo(x - 6, 0);
  pen.lineTo(x + 6, 0);
  pen.lineTo(x, 9);
  pen.fill();
}

// All bars, drawn once for a size and a theme.
function stripOf(view, width, height, ratio) {
  const canvas = element("canvas"), pen = canvas.getContext("2d");
  canvas.width = width * ratio;
  canvas.height = height * ratio;
  pen.scale(ratio, ratio);
  const colours = new Map();            // to ask the style of each bar anew would take most of the time
  const colour = name => getOrMake(colours, name, () => colourOf(name));
  shadeSettles(view, pen, colour, width, height);
  const kinds = view.run.lines.map(line => kindOfEvent(view.run, line)), bar = Math.max(1.2, Math.min(6, (width - 16) / kinds.length - 1));
  for (const isTelling of [false, true]) {
    kinds.forEach((kind, k) => {
      if (kind in HEIGHTS === isTelling) drawBar(pen, colour, kind, placeOnStrip(view, k + 1, width), bar, height);
    });
  }
  return canvas;
}

function drawBar(pen, colour, kind, x, bar, height) {
  const tall = HEIGHTS[kind] || 6;
  pen.fillStyle = pen.strokeStyle = colour(BARS[kind] || "--faint");
  if (kind === "wait" && bar > 3) pen.strokeRect(x - bar / 2 + 0.5, height - 4 - tall, bar - 1, tall);
  else pen.fillRect(x - bar / 2, height - 4 - tall, bar, tall);
  pen.font = "bold 11px system-ui, sans-serif";
  if (kind === "reject" || kind === "lose") pen.fillText(kind === "reject" ? "\u2715" : "\u00d8", x - 4, height - 6 - tall);
}

function shadeSettles(view, pen, colour, width, height) {
  const lines = view.run.lines;
  pen.font = "10px system-ui, sans-serif";
  for (let first = 0, k = 1; k <= lines.length; k++) {
    if (k < lines.length && lines[k].of === lines[first].of) continue;
    const x1 = placeOnStrip(view, first + 0.5, width), x2 = placeOnStrip(view, k + 0.5, width);
    pen.fillStyle = colour("--soft");
    if (lines[first].round) pen.fillRect(x1, 14, x2 - x1, height - 18);
    pen.fillStyle = colour("--faint");
    if (lines[first].round && x2 - x1 > 34) pen.fillText(view.run.data.events[lines[first].of - 1], x1 + 3, 11);
    first = k;
  }
}

function listenToTimeline(view) {
  const canvas = byId("timeline");
  let isDragging = false;
  const seek = event => {
    const place = canvas.getBoundingClientRect();
    view.go(Math.round((event.clientX - place.left - 8) / (place.width - 16) * view.run.count));
  };
  canvas.onpointerdown = event => { isDragging = true; canvas.setPointerCapture(event.pointerId); seek(event); };
  canvas.onpointermove = event => { if (isDragging) seek(event); };
  canvas.onpointerup = canvas.onpointercancel = () => { isDragging = false; };
}
