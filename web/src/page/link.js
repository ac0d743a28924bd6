// A link that carries a diagram, and which card is seen, in its fragment. A long text is packed.

const LONG = 1500; // characters of a text in a link that isn't packed

const partsOf = () => new URLSearchParams(location.hash.slice(1).replaceAll("+", "%2B"));

/** Whether the address carries a diagram. */
export const hasLink = () => partsOf().has("dag") || partsOf().has("zip");

/** @returns {Promise<{text: string | null, card: string | null}>} */
export async function readLink() {
  const parts = partsOf(), zip = parts.get("zip");
  return { text: zip ? await unpacked(zip) : parts.get("dag"), card: parts.get("card") };
}

/** @returns {Promise<string>} */
export async function writeLink(text, card) {
  const plain = encodeURIComponent(text), isPacked = plain.length > LONG && "CompressionStream" in globalThis;
  const part = isPacked ? `zip=${await packed(text)}` : `dag=${plain}`;
  return `${location.href.split("#")[0]}#${part}&card=${encodeURIComponent(card)}`;
}

/** The part of a link that any copy of the page understands. */
export const partOf = (link) => link.slice(link.indexOf("#"));

const through = (bytes, stream) => new Response(new Blob([bytes]).stream().pipeThrough(stream));

async function packed(text) {
  const bytes = new Uint8Array(await through(text, new CompressionStream("deflate-raw")).arrayBuffer());
  return btoa(Array.from(bytes, (byte) => String.fromCharCode(byte)).join("")).replaceAll("+", "-").replaceAll("/", "_").replace(/=+$/, "");
}

/** A packed text; null where it isn't one. */
async function unpacked(zip) {
  try {
    const bytes = Uint8Array.from(atob(zip.replaceAll("-", "+").replaceAll("_", "/")), (letter) => letter.charCodeAt(0));
    return await through(bytes, new DecompressionStream("deflate-raw")).text();
  } catch {
    return null;
  }
}

const PAUSE_MS = 300;
let coming;

/** Once the address carries a diagram, it follows what is shown. */
export function followLink(text, card) {
  clearTimeout(coming);
  if (!hasLink()) return;
  const mine = (coming = setTimeout(async () => {
    const link = await writeLink(text, card);
    if (mine === coming) history.replaceState(null, "", link);
  }, PAUSE_MS));
}
