// The form: an example or two texts of one's own, opened, saved, and kept in the address.

const EXAMPLES = JSON.parse(byId("examples").textContent);      // name -> [catalogue, workload, what it shows]
const TYPING = 400;                     // milliseconds after the last key
const KEPT = "sdd1: a catalogue and a workload";
const OF_A_FILE = " It opens where this file lies at the same place; elsewhere put what stands behind # behind the address of the file there.";

const texts = () => [byId("catalogue-text").value, byId("workload-text").value];

function setTexts(catalogue, workload) {
  byId("catalogue-text").value = catalogue;
  byId("workload-text").value = workload;
  nameTexts();
}

// The example whose texts these are, or nothing.
function exampleOf(catalogue, workload) {
  return Object.keys(EXAMPLES).find(x => EXAMPLES[x][0] === catalogue && EXAMPLES[x][1] === workload) || "";
}

function nameTexts() {
  const name = exampleOf(...texts());
  byId("example").value = name;
  byId("about").textContent = EXAMPLES[name]?.[2] || "";
}

const nameOfRun = () => exampleOf(...texts()) || "a run of your own";

// ---- The address has the texts that stand there, where they are short; else they are kept as long as the window. ----

const kept = {source: "", count: 0};

// Notes the two texts, and calls `noted` then. An earlier call that ends later notes nothing.
async function note([catalogue, workload], noted) {
  const mine = ++kept.count, name = exampleOf(catalogue, workload), packed = name ? null : await packedRun(catalogue, workload);
  if (mine !== kept.count) return;
  try {
    sessionStorage.setItem(KEPT, JSON.stringify([catalogue, workload]));
  } catch {
    // A browser may keep nothing for a file: then only a long text is lost by a reload.
  }
  kept.source = name ? "example=" + name : packed.text ? "run=" + packed.text : "kept=1";
  noted();
}

// The texts of an address, or nothing.
async function textsOf(wishes) {
  if (wishes.has("run")) return unpackedRun(wishes.get("run"));
  if (Object.hasOwn(EXAMPLES, wishes.get("example") || "")) return EXAMPLES[wishes.get("example")];
  try {
    return wishes.has("kept") ? JSON.parse(sessionStorage.getItem(KEPT)) : null;
  } catch {
    return null;
  }
}

function noteForm() {
  return note(texts(), () => { if (isForm()) history.replaceState(history.state, "", "#" + kept.source); });
}

const isForm = () => document.body.classList.contains("starting");

// The whole address, to be copied; or why there is none.
async function shareAddress() {
  say("");
  const [catalogue, workload] = texts(), {text, length} = await packedRun(catalogue, workload), name = exampleOf(catalogue, workload);
  if (!text && !name) {
    return say(`This run is too long for an address: packed it has ${length} letters, and an address has at most ${MOST_ADDRESS}. `
      + "Save the two files instead.", true);
  }
  const field = byId("shared-address");
  field.value = location.href.split("#")[0] + "#" + (name ? "example=" + name : "run=" + text) + "&do=inside";
  const copied = await navigator.clipboard?.writeText(field.value).then(() => true, () => false);
  say((copied ? "The address is copied." : "Copy the address from the field below.") + (location.protocol === "file:" ? OF_A_FILE : ""));
  byId("shared").hidden = false;
  field.focus();
  field.select();
  return null;
}

// ---- Messages and texts of the programs. ----

function say(text, isBad = false) {
  const box = byId("status");
  box.textContent = text;
  box.className = isBad ? "gone" : "faint";
  for (const id of ["output", "drawing", "output-acts", "shared"]) byId(id).hidden = true;
}

// A refusal: the program's line, the line of the text of which it speaks, what the rule means and what helps.
function sayRefusal(fault) {
  const [catalogue, workload] = texts(), place = placeOfFault(fault, catalogue, workload);
  say(fault, true);
  if (place) {
    byId("status").append(element("pre", "quoted", place.text || "(an empty line)"));
    showPlace(byId(place.file + "-text"), place);
  }
  for (const sentence of explanationOf(fault, place?.text)) byId("status").append(element("div", "explained", sentence));
  byId("status").scrollIntoView({block: "nearest"});
}

// Selects a place of a text, and scrolls there.
function showPlace(area, {begin, end, line}) {
  const count = area.value.split("\n").length;
  area.focus({preventScroll: true});
  area.setSelectionRange(begin, end);
  area.scrollTop = Math.max(0, area.scrollHeight * (line - 4) / count);
}

function showOutput(text, name) {
  byId("output").textContent = text;
  byId("output").hidden = byId("output-acts").hidden = false;
  byId("output-save").onclick = () => saveFile(name, text);
}

// ---- Files. ----

function saveFile(name, text) {
  const link = element("a");
  link.href = URL.createObjectURL(new Blob([text], {type: "application/octet-stream"}));      // a text would be saved as workload.txt
  link.download = name;
  link.click();
  setTimeout(() => URL.revokeObjectURL(link.href), 10000);
}

async function openFile(input, area) {
  const name = input.files[0].name, bytes = new Uint8Array(await input.files[0].arrayBuffer());
  input.value = "";
  area.value = new TextDecoder("utf-8", {ignoreBOM: true}).decode(bytes);
  nameTexts();
  say(`${name} is opened.`);
  const stands = new TextEncoder().encode(area.value);
  if (stands.length !== bytes.length || stands.some((x, k) => x !== bytes[k])) {
    say(`${name}: a text field can't keep these bytes as they are (carriage returns, or no UTF-8); what stands there is what is run.`, true);
  }
  await noteForm();
}

function listenToForm() {
  let timer = 0;
  for (const what of ["catalogue", "workload"]) {
    const area = byId(what + "-text"), file = what === "catalogue" ? CATALOGUE : WORKLOAD;
    area.oninput = () => {
      clearTimeout(timer);
      timer = setTimeout(() => { nameTexts(); noteForm(); }, TYPING);
    };
    byId(what + "-save").onclick = () => { saveFile(file, area.value); say(`Saved as the file \`${file}\`, where your browser keeps downloads.`); };
    byId(what + "-file").onchange = event => openFile(event.target, area);
  }
  byId("example").append(new Option("(your own)", ""), ...Object.keys(EXAMPLES).map(x => new Option(x)));
  byId("example").onchange = () => {
    setTexts(...EXAMPLES[byId("example").value] || ["", "end\n"]);
    say("");
    noteForm();
    runAhead();
  };
  byId("share").onclick = shareAddress;
}
