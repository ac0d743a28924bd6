// side_by_side.cjs MODULE DATA CALLS PLACES [CALL LOG]: runs the calls on the module (side_by_side.py), and prints a line of each.
// With CALL it ends behind that one, and writes what the functions noted in it.
const fs = require("fs");
const [object, data, calls, places, logged, log] = process.argv.slice(2);
const { base: BASE, stack: STACK, heap: HEAP, end: END, log_end: LOG_END } = JSON.parse(places);
const PAGES = LOG_END / 65536;
const MASK = (1n << 64n) - 1n;

function memory64() {
  try {
    return new WebAssembly.Memory({ initial: BigInt(PAGES), address: "i64" });
  } catch {
    return new WebAssembly.Memory({ initial: PAGES, index: "i64" });
  }
}
const memory = memory64();
const view = new DataView(memory.buffer);
const bytes = new Uint8Array(memory.buffer);
const words = new Uint32Array(memory.buffer);
const put = (to, x) => view.setBigUint64(Number(to), BigInt.asUintN(64, x), true);
const wide = (low, high) => (BigInt.asUintN(64, high) << 64n) | BigInt.asUintN(64, low);
const putWide = (to, r) => {
  put(to, r & MASK);
  put(Number(to) + 8, r >> 64n);
};

// The heap: pieces of powers of two behind a word that says which; the C has the same.
let top = HEAP;
const free = Array.from({ length: 64 }, () => []);
function take(size) {
  let kind = 4;
  while (2 ** kind < size) kind++;
  if (free[kind].length) return free[kind].pop();
  const p = top + 16;
  top = p + 2 ** kind;
  if (top > END) throw new Error("no memory");
  put(p - 16, BigInt(kind));
  return p;
}
const give = (p) => free[Number(view.getBigUint64(p - 16, true))].push(p);
const told = (to, p) => {
  put(to, 1n);
  put(Number(to) + 8, BigInt(p));
};

const env = {
  memory,
  stack: new WebAssembly.Global({ value: "i64", mutable: true }, BigInt(STACK)),
  __multi3: (to, a, b, c, d) => putWide(to, wide(a, b) * wide(c, d)),
  __lshrti3: (to, a, b, n) => putWide(to, wide(a, b) >> BigInt(n & 127)),
  __ashlti3: (to, a, b, n) => putWide(to, (wide(a, b) << BigInt(n & 127)) & ((1n << 128n) - 1n)),
  rattle_alloc: (to, size, align) => told(to, take(Number(size || align))),
  rattle_realloc: (to, old, kept, size, align) => {
    const p = take(Number(size || align));
    bytes.copyWithin(p, Number(old), Number(old) + Number(kept < size ? kept : size));
    give(Number(old));
    told(to, p);
  },
  rattle_dealloc: (old) => give(Number(old)),
};
const made = new WebAssembly.Instance(new WebAssembly.Module(fs.readFileSync(object)), { env }).exports;
bytes.set(fs.readFileSync(data), BASE);

function sumOfMemory() {
  let h = 0;
  for (let i = BASE / 4; i < top / 4; i++) h = (Math.imul(h, 31) + words[i]) | 0;
  return h >>> 0;
}

function call(line) {
  const [name, pokes, ...row] = line.split(" ");
  for (const poke of pokes.split(",").filter((it) => it.includes(":"))) {
    const [at, hex] = poke.split(":");
    bytes.set(Buffer.from(hex, "hex"), Number(at));
  }
  const numbers = row.map((it) => (it.startsWith("@") ? view.getBigUint64(Number(it.slice(1)), true) : BigInt(it)));
  const result = made[name](...numbers);
  console.log(name, BigInt.asUintN(64, BigInt(result)).toString(), BigInt.asUintN(64, made.sum.value).toString(), sumOfMemory(), top);
}

const lines = fs.readFileSync(calls, "utf8").trim().split("\n");
if (logged === undefined) {
  lines.forEach(call);
} else {
  lines.slice(0, Number(logged)).forEach(call);
  made.log.value = BigInt(END);
  try {
    call(lines[Number(logged)]);
  } finally {
    fs.writeFileSync(log, bytes.subarray(END, Number(made.log.value)));
  }
}
