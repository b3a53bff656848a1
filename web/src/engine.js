// A study carried out by the module. On wasm64 addresses and lengths are `BigInt`s, and a struct that is passed by value is
// the address of a copy in memory. The memory that a call is handed is its own, so each call has an instance of its own.

const PAGE = 65536;
const LEAST_MEMORY = 2 ** 24;
const MOST_MEMORY = 2 ** 33;
const STATUS = { done: 0, notAccepted: 1, refused: 3, tooLarge: 4, noMemory: 5, noRoom: 6 };

// Some engines take a number of pages here, and others a `BigInt`.
function growBy(memory, pages) {
  try {
    memory.grow(BigInt(pages));
  } catch (error) {
    if (!(error instanceof TypeError)) throw error;
    memory.grow(pages);
  }
}

// Places in the memory of an instance, each a multiple of 16, after those that it uses itself.
function places(exports) {
  let end = Math.ceil(Number(exports.__heap_base.value) / 16) * 16;
  return {
    take(size) {
      const at = end;
      end += Math.ceil(size / 16) * 16;
      return at;
    },
    grow() {
      const missing = end - exports.memory.buffer.byteLength;
      if (missing > 0) growBy(exports.memory, Math.ceil(missing / PAGE));
    },
  };
}

// The size of `struct ospf_capture_file`: the addresses and the lengths of its name and of its bytes.
const FILE_SIZE = 32;

// Takes places for an input: bytes, or a list of files, each with a name and bytes, which is a list of structs.
function placed(room, input) {
  if (input instanceof Uint8Array) return { at: room.take(input.length), count: input.length, bytes: input };
  const at = room.take(Math.max(1, input.length) * FILE_SIZE);
  const files = input.map(({ name, bytes }) => [[name, room.take(name.length)], [bytes, room.take(bytes.length)]]);
  return { at, count: input.length, files };
}

// Writes an input to its places.
function fill(memory, { at, bytes: own, files = [] }) {
  const bytes = new Uint8Array(memory.buffer);
  if (own) bytes.set(own, at);
  files.forEach((file, k) => {
    for (const [part, place] of file) bytes.set(part, place);
    new BigUint64Array(memory.buffer, at + k * FILE_SIZE, 4).set(file.flatMap(([part, place]) => [BigInt(place), BigInt(part.length)]));
  });
}

// One call of an export: `name`, a struct of `flags`, `inputs`, and a report of `counts` words. `lengths` are the places in
// the report that have the lengths of the texts, for each of which `rooms` has a size.
function callOnce(module, { name, flags, inputs, counts, lengths }, rooms, heap) {
  const exports = new WebAssembly.Instance(module, {}).exports;
  const room = places(exports);
  const memoryAt = room.take(16), flagsAt = room.take(flags.length), reportAt = room.take(8 * counts);
  const given = inputs.map((input) => placed(room, input)), roomsAt = rooms.map((size) => room.take(size));
  const heapAt = room.take(heap);
  room.grow();
  const bytes = new Uint8Array(exports.memory.buffer);
  bytes.set(flags, flagsAt);
  for (const input of given) fill(exports.memory, input);
  new BigUint64Array(exports.memory.buffer, memoryAt, 2).set([BigInt(heapAt), BigInt(heap)]);
  const parts = [
    ...given.flatMap(({ at, count }) => [at, count]), ...rooms.flatMap((size, k) => [roomsAt[k], size]),
  ];
  const status = exports[name](...[memoryAt, flagsAt, ...parts, reportAt].map(BigInt));
  const report = [...new BigUint64Array(exports.memory.buffer, reportAt, counts)].map(Number);
  const after = new Uint8Array(exports.memory.buffer), needed = lengths.map((place) => report[place]);
  const text = (k) => after.slice(roomsAt[k], roomsAt[k] + Math.min(needed[k], rooms[k]));
  return { status, report, needed, texts: status === STATUS.noRoom ? [] : rooms.map((_, k) => text(k)) };
}

// Calls with more memory, and with longer rooms, until there is enough.
function call(module, form) {
  let heap = LEAST_MEMORY, rooms = form.lengths.map(() => 2 ** 18);
  for (;;) {
    const answer = callOnce(module, form, rooms, heap);
    if (answer.status === STATUS.noMemory && heap < MOST_MEMORY) heap *= 4;
    else if (answer.status === STATUS.noRoom) rooms = rooms.map((size, k) => Math.max(size, answer.needed[k]));
    else return answer;
  }
}

// A script carried out on a dump, as ospf-plan does: its replies, the dump and the session that it leaves, and its fault.
function runScript(module, dump, script, wanted = { replies: true, dump: false, session: false }) {
  const flags = Uint8Array.from([wanted.replies, wanted.dump, wanted.session], Number);
  const form = { name: 'ospf_plan_run', flags, inputs: [dump, script], counts: 6, lengths: [0, 1, 2, 3] };
  const { status, texts, report } = call(module, form);
  const [replies, left, session, fault] = texts;
  return { status, replies, dump: left, session, fault, commands: report[4], refused: report[5] };
}

// A study carried out on a dump, as ospf-study does: its replies, its lines of errors, and the dump that it leaves.
function runStudy(module, given) {
  const none = new Uint8Array();
  const { dump, baseline = null, names = none, study, keepGoing = false, verbose = false, json = true, wantsDump = false } = given;
  const flags = Uint8Array.from([baseline !== null, keepGoing, verbose, json, wantsDump], Number);
  const inputs = [dump, baseline ?? none, names, study];
  const { status, texts } = call(module, { name: 'ospf_study_run', flags, inputs, counts: 7, lengths: [0, 1, 2] });
  const [replies, errors, left] = texts;
  return { status, replies, errors, dump: left };
}

// Whether a module makes dumps of captures, walks and what routers print.
function readsCaptures(module) {
  return WebAssembly.Module.exports(module).some(({ name }) => name === 'ospf_capture_run');
}

// A dump made of files and compared with lists, as ospf-capture does: the lines of what each file contains, of notices and
// of warnings, and the dump. A run that ended early has one line of warnings: why.
function runCapture(module, { files, lists = [], keepFlushed = false }) {
  const inputs = [files, lists].map((some) => some.map(({ name, bytes }) => ({ name: new TextEncoder().encode(name), bytes })));
  const flags = Uint8Array.of(Number(keepFlushed));
  const { status, texts, report } = call(module, { name: 'ospf_capture_run', flags, inputs, counts: 4, lengths: [0, 2, 3] });
  const [output, warnings, dump] = texts, isMade = status === STATUS.done || status === STATUS.notAccepted;
  const at = isMade ? report[1] : 0;
  return { status, output, contents: output.slice(0, at), notices: output.slice(at), warnings, dump };
}
