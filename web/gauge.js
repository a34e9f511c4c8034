// The gauge: the exports of crates/page, compiled to WebAssembly, over one stretch of its memory that is lent to every call. A call takes numbers, and
// answers with an object whose `refusal` is 0 or the number of the rule that was broken.

const LARGEST_SIDE = 1024;
const MOST_PELS = LARGEST_SIDE * LARGEST_SIDE;
const MOST_BLOCKS = MOST_PELS / 16;
const LONGEST_TEXT = 393236;
const LARGEST_CEILING = 0xffffffff;

class Gauge {
  static async open(bytes) {
    const { instance } = await WebAssembly.instantiate(bytes);
    return new Gauge(instance.exports);
  }

  constructor(calls) {
    this.calls = calls;
    // what is lent, one behind the other, each at a multiple of 16 bytes; the log is last, for a file may have any length
    let end = calls.__heap_base.value;
    const lend = (bytes) => {
      const at = (end + 15) & ~15;
      end = at + bytes;
      return at;
    };
    this.at = {
      older: lend(MOST_PELS),
      newer: lend(MOST_PELS),
      list: lend(4 * 3 * MOST_BLOCKS),
      table: lend(4 * (LARGEST_SIDE + 1) ** 2),
      text: lend(LONGEST_TEXT),
      vectors: lend(4 * 4),
      answer: lend(8 * 16),
      log: lend(9 + 7 * MOST_BLOCKS + 5),
    };
    this.reach(end);
    this.older = this.newer = 0;
  }

  // Memory up to `end`.
  reach(end) {
    const short = end - this.calls.memory.buffer.byteLength;
    if (short > 0) this.calls.memory.grow(Math.ceil(short / 65536));
  }

  bytes(at, length) {
    return new Uint8Array(this.calls.memory.buffer, at, length);
  }

  // The two frames of all calls that follow: width and height are those that are claimed, the lengths those that the frames have.
  lend(older, newer, width, height) {
    this.bytes(this.at.older, older.length).set(older);
    this.bytes(this.at.newer, newer.length).set(newer);
    this.older = older.length;
    this.newer = newer.length;
    this.width = width;
    this.height = height;
  }

  get pair() {
    return [this.at.older, BigInt(this.older), this.at.newer, BigInt(this.newer), BigInt(this.width), BigInt(this.height)];
  }

  get vectors() {
    return [this.at.vectors, 4n];
  }

  get answer() {
    return [this.at.answer, 16n];
  }

  // Numbers that came back: without a sign, and parts of vectors.
  numbers(count) {
    return Array.from(new BigUint64Array(this.calls.memory.buffer, this.at.answer, count), Number);
  }

  parts(count) {
    return Array.from(new Int32Array(this.calls.memory.buffer, this.at.vectors, count));
  }

  listed(blocks) {
    return new Int32Array(this.calls.memory.buffer, this.at.list, 3 * blocks).slice();
  }

  // One vector, measured under a ceiling.
  measure(request, row, column, dy, dx, ceiling) {
    const { n, measure } = request;
    this.calls.page_measure(...this.pair, BigInt(n), BigInt(row), BigInt(column), dy, dx, measure, ceiling, ...this.answer);
    const [refusal, distortion, over, rows] = this.numbers(4);
    return { refusal, distortion, over: over === 1, rows };
  }

  // One block searched, and to half a pel.
  search(request, row, column) {
    const { n, search, w, t, measure } = request;
    this.calls.page_search(...this.pair, BigInt(n), search, BigInt(w), t, measure, BigInt(row), BigInt(column), ...this.vectors, ...this.answer);
    const [refusal, distortion, ...rest] = this.numbers(10);
    const [dy, dx, halfDy, halfDx] = this.parts(4);
    return { refusal, dy, dx, distortion, counts: rest.slice(0, 6), dropped: rest[6], halfDy, halfDx, halfDistortion: rest[7] };
  }

  // Every block of the grid searched: the reading, the sums, and three numbers a block.
  field(request) {
    const { n, search, w, t, measure } = request;
    const list = [this.at.list, BigInt(3 * MOST_BLOCKS)];
    const table = [this.at.table, BigInt((LARGEST_SIDE + 1) ** 2)];
    this.calls.page_field(...this.pair, BigInt(n), search, BigInt(w), t, measure, ...list, ...table, ...this.vectors, ...this.answer);
    const [refusal, votes, voters, ...rest] = this.numbers(10);
    const [dy, dx] = this.parts(2);
    const blocks = refusal === 0 ? gridOf(this.width, this.height, n).blocks : 0;
    return { refusal, dy, dx, votes, voters, counts: rest.slice(0, 6), dropped: rest[6], list: this.listed(blocks) };
  }

  // Whether the block at a place votes, in the newer frame or in the older one.
  votes(n, row, column, inOlder = false) {
    const frame = inOlder ? [this.at.older, BigInt(this.older)] : [this.at.newer, BigInt(this.newer)];
    this.calls.page_votes(...frame, BigInt(this.width), BigInt(this.height), BigInt(n), BigInt(row), BigInt(column), ...this.answer);
    const [refusal, votes] = this.numbers(2);
    return refusal === 0 && votes === 1;
  }

  // The log of a field, as bytes.
  writeLog(head, list) {
    const { width, height, n, w, search, measure } = head;
    new Int32Array(this.calls.memory.buffer, this.at.list, list.length).set(list);
    const buffer = [this.at.log, BigInt(9 + 7 * MOST_BLOCKS + 5)];
    const lent = [this.at.list, BigInt(list.length)];
    this.calls.page_write_log(BigInt(width), BigInt(height), BigInt(n), BigInt(w), search, measure, ...lent, ...buffer, ...this.answer);
    const [refusal, place, length] = this.numbers(3);
    return { refusal, place, log: this.bytes(this.at.log, length).slice() };
  }

  lendLog(log) {
    this.reach(this.at.log + log.length);
    this.bytes(this.at.log, log.length).set(log);
    return [this.at.log, BigInt(log.length)];
  }

  // A log read: its head's numbers, and three numbers a block.
  readLog(log) {
    this.calls.page_read_log(...this.lendLog(log), this.at.list, BigInt(3 * MOST_BLOCKS), ...this.answer);
    const [refusal, place, width, height, n, w, search, measure] = this.numbers(8);
    const blocks = refusal === 0 ? gridOf(width, height, n).blocks : 0;
    return { refusal, place, head: { width, height, n, w, search, measure }, list: this.listed(blocks) };
  }

  // The text that the program read_log prints.
  printLog(log) {
    this.calls.page_print_log(...this.lendLog(log), this.at.text, BigInt(LONGEST_TEXT), ...this.answer);
    const [length] = this.numbers(1);
    return new TextDecoder().decode(this.bytes(this.at.text, length));
  }
}

// The grid of a frame: how many columns, rows and blocks, and where block k stands.
function gridOf(width, height, n) {
  const columns = Math.floor(width / n);
  const rows = Math.floor(height / n);
  const place = (k) => ({ row: Math.floor(k / columns) * n, column: (k % columns) * n });
  return { n, columns, rows, blocks: columns * rows, place };
}
