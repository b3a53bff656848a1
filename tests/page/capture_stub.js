// The call of captures made of script, for a module that has none: its structs, rooms and statuses are those that
// include/ospf_plan.h has for ospf_capture_run. Of each file it reports the length; its dump is what the last file has after
// its first line. A file of the line REFUSED is refused, and a list gives a warning.

const LEAST_HEAP = 2 ** 26;
const CAPTURED = { done: 0, notAccepted: 1, refused: 3, noMemory: 5, noRoom: 6 };

// The files of an array of `struct ospf_capture_file`.
function filesAt(buffer, at, count) {
  const words = [...new BigUint64Array(buffer, at, 4 * count)].map(Number);
  const part = (k) => new Uint8Array(buffer, words[k], words[k + 1]).slice();
  return Array.from({ length: count }, (_, k) => ({ name: new TextDecoder().decode(part(4 * k)), bytes: part(4 * k + 2) }));
}

// What a run over files and lists gives: its status and the lengths of its report, with the texts.
function capturedOf(files, lists, keepFlushed) {
  const lineOf = (bytes) => new TextDecoder().decode(bytes).split('\n')[0];
  const refused = files.find(({ bytes }) => lineOf(bytes) === 'REFUSED');
  if (refused) return { status: CAPTURED.refused, output: '', contents: '', warnings: `${refused.name}: UnknownKind at 0\n`, dump: [] };
  const contents = files.map(({ name, bytes }) => `${name}: printed, ${bytes.length} LSAs, 1 areas\n`).join('');
  const warnings = lists.map(({ name }) => `${name}: Missing area 0.0.0.0 type 1 id 3.3.3.3 adv 3.3.3.3\n`).join('');
  const { bytes } = files.at(-1), dump = [...bytes.slice(bytes.indexOf(10) + 1)];
  const status = warnings ? CAPTURED.notAccepted : CAPTURED.done;
  return { status, output: `${contents}database: Opaque 2${keepFlushed ? ' flushed' : ''}\n`, contents, warnings, dump };
}

function captureRun({ buffer }, words) {
  const [memoryAt, mannerAt, filesPlace, fileCount, listsPlace, listCount, ...rest] = words, reportAt = rest.pop();
  if (Number(new BigUint64Array(buffer, memoryAt, 2)[1]) < LEAST_HEAP) return CAPTURED.noMemory;
  const files = filesAt(buffer, filesPlace, fileCount), lists = filesAt(buffer, listsPlace, listCount);
  const { status, output, contents, warnings, dump } = capturedOf(files, lists, new Uint8Array(buffer)[mannerAt] === 1);
  const [lines, first, warned] = [output, contents, warnings].map((text) => new TextEncoder().encode(text));
  const texts = [lines, warned, Uint8Array.from(dump)];
  new BigUint64Array(buffer, reportAt, 4).set([lines, first, warned, dump].map(({ length }) => BigInt(length)));
  if (texts.some(({ length }, k) => length > rest[2 * k + 1])) return CAPTURED.noRoom;
  texts.forEach((text, k) => new Uint8Array(buffer).set(text, rest[2 * k]));
  return status;
}

// Gives each module this call, where it has none.
function stubCaptures() {
  const { Instance, Module } = WebAssembly, exportsOf = Module.exports.bind(Module);
  Module.exports = (module) => [...exportsOf(module), { name: 'ospf_capture_run', kind: 'function' }];
  WebAssembly.Instance = function (module, imports) {
    const { exports } = new Instance(module, imports);
    return { exports: { ...exports, ospf_capture_run: (...words) => captureRun(exports.memory, words.map(Number)) } };
  };
}
