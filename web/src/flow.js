// Whether an edge lies on an open path: two open ways that have no vertex in common lead from its two ends to both ends of the path. They are a
// flow of two units in a network in which each vertex lets one through, by what is open there.
//
// A vertex that neither is in the set nor leads to it closes for a collider alone. Its part of the network lets one unit leave by a tail, and
// another, which came by a tail, by a head; no two ways without a common vertex are lost by that, and none is gained. For what comes down through
// such a vertex goes down to its end, and what goes up through it came straight up, from a tail of the edge at its lower end. So the way of the
// other end would go down for good, and come down to a vertex from which it went up: the arrows would have a cycle. One way that does both
// is made shorter at that vertex.

/** @typedef {{to: number, out: boolean, in: boolean}} Step where a step leads, and whether it begins and whether it ends with a head */
/**
 * Steps from each vertex of a diagram without cycles, and what a set makes of the vertices.
 * @typedef {{steps: Step[][], inSet: boolean[], leads: boolean[]}} Given `leads` where a vertex leads to the set, or is in it
 */

/** The places of a vertex in the network: how a way comes, how it leaves, where it is let through, and where the edge's own way begins. */
const IN = [0, 1], OUT = [2, 3], MIDDLE = 4, LAST = 5, START = [6, 7], PLACES = 8;
const TAIL = 0, HEAD = 1;

/** The network for paths between two vertices. */
export class Flow {
  /** @type {number[][]} the arcs from each place */ #from;
  #to = [];
  #room = []; // what each arc lets through; the next one is its reverse
  #free; // the same, before anything flows

  /** @param {Given} given @param {number} x @param {number} y */
  constructor({ steps, inSet, leads }, x, y) {
    const size = steps.length * PLACES;
    Object.assign(this, { x, y, end: size });
    this.#from = Array.from({ length: size + 1 }, () => []);
    steps.forEach((list, v) => {
      const place = (which) => v * PLACES + which;
      if (v === x || v === y) {
        for (const come of IN) this.#arc(place(come), place(MIDDLE));
        this.#arc(place(MIDDLE), size);
      } else this.#vertex(place, inSet[v], leads[v]);
      for (const step of list) this.#arc(place(OUT[Number(step.out)]), step.to * PLACES + IN[Number(step.in)]);
    });
    this.#free = Uint8Array.from(this.#room);
  }

  /** What is open at a vertex: a collider where it leads to the set, else what isn't in the set. */
  #vertex(place, isInSet, leads) {
    if (leads) this.#arc(place(START[HEAD]), place(OUT[HEAD]));
    if (!isInSet) for (const [come, leave] of [[HEAD, TAIL], [TAIL, HEAD], [TAIL, TAIL]]) this.#arc(place(START[come]), place(OUT[leave]));
    if (isInSet) return this.#arc(place(IN[HEAD]), place(OUT[HEAD]));
    this.#arc(place(IN[TAIL]), place(MIDDLE));
    if (leads) this.#arc(place(IN[HEAD]), place(MIDDLE));
    else this.#arc(place(IN[HEAD]), place(LAST));
    const next = leads ? LAST : MIDDLE;
    this.#arc(place(MIDDLE), place(LAST));
    this.#arc(place(next), place(OUT[HEAD]));
    this.#arc(place(LAST), place(OUT[TAIL]));
  }

  #arc(from, to) {
    for (const [a, b, room] of [[from, to, 1], [to, from, 0]]) {
      this.#from[a].push(this.#to.length);
      this.#to.push(b);
      this.#room.push(room);
    }
  }

  /** Whether an open path between x and y goes over the edge of this step. @param {number} from @param {Step} step */
  goesOver(from, step) {
    const ends = [[from, step.out], [step.to, step.in]], left = ends.filter(([v]) => v !== this.x && v !== this.y);
    this.#room = Uint8Array.from(this.#free);
    return left.every(([v, isHead]) => this.#flows(v * PLACES + START[Number(isHead)], from, step.to));
  }

  /** Has one more unit flow from a place to the end, not by way of the vertices a and b. */
  #flows(start, a, b) {
    const by = new Int32Array(this.#from.length).fill(-1), queue = [start], room = this.#room, isClosed = (place) => {
      const v = (place - (place % PLACES)) / PLACES;
      return (v === a || v === b) && place % PLACES < OUT[0];
    };
    for (const at of queue) {
      for (const arc of this.#from[at]) {
        const to = this.#to[arc];
        if (!room[arc] || by[to] >= 0 || to === start || isClosed(to)) continue;
        by[to] = arc;
        if (to === this.end) return this.#fill(by, start);
        queue.push(to);
      }
    }
    return false;
  }

  #fill(by, start) {
    for (let place = this.end; place !== start; place = this.#to[by[place] ^ 1]) {
      this.#room[by[place]]--;
      this.#room[by[place] ^ 1]++;
    }
    return true;
  }
}
