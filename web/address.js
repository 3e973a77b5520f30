// A run as an address: behind `#run=` stand the catalogue and the workload, packed. Nobody's server sees what stands behind #.

const MOST_ADDRESS = 8000;              // letters: mails and chats cut longer ones
const MOST_UNPACKED = 4 * 2 ** 20;

async function packedRun(catalogue, workload) {
  const stream = new Blob([JSON.stringify([catalogue, workload])]).stream().pipeThrough(new CompressionStream("deflate-raw"));
  const bytes = new Uint8Array(await new Response(stream).arrayBuffer());
  if (bytes.length > MOST_ADDRESS) return {length: Math.ceil(bytes.length * 4 / 3), text: null};
  const text = btoa(String.fromCharCode(...bytes)).replaceAll("+", "-").replaceAll("/", "_").replace(/=+$/, "");
  return {length: text.length, text: text.length > MOST_ADDRESS ? null : text};
}

// The catalogue and the workload of an address. What is no such address, or one of a text that is too long, is refused.
async function unpackedRun(text) {
  try {
    const bytes = Uint8Array.from(atob(text.replaceAll("-", "+").replaceAll("_", "/")), x => x.charCodeAt(0));
    const reader = new Blob([bytes]).stream().pipeThrough(new DecompressionStream("deflate-raw")).getReader(), parts = [];
    for (let length = 0, part; !(part = await reader.read()).done; length += part.value.length) {
      if (length > MOST_UNPACKED) throw new Error("too long");
      parts.push(part.value);
    }
    const texts = JSON.parse(await new Blob(parts).text());
    if (texts.length !== 2 || texts.some(x => typeof x !== "string")) throw new Error("no two texts");
    return texts;
  } catch {
    throw new BadInput("the run in this address isn't whole: ask for it anew, or for the two files");
  }
}
