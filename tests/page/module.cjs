// Runs the module on the cases that module_cases.py writes: node --experimental-wasm-memory64 module.cjs MODULE CASES
//
// Calls of captures are cases where the module has the call. Their form is checked in any case, by the call that
// capture_stub.js makes of script. The last line is `N passed, M failed`.
'use strict';
const fs = require('node:fs');
const path = require('node:path');
const vm = require('node:vm');

const NAMES = ['runScript', 'runStudy', 'runCapture', 'readsCaptures'];
const engine = path.join(__dirname, '..', '..', 'web', 'src', 'engine.js');
const { runScript, runStudy, runCapture, readsCaptures } = vm.runInThisContext(`'use strict'; (() => { ${fs.readFileSync(engine, 'utf8')}; return { ${NAMES} }; })()`);
const bytes = (encoded) => encoded === null ? null : new Uint8Array(Buffer.from(encoded, 'base64'));
const filesOf = (files) => files.map(([name, encoded]) => ({ name, bytes: bytes(encoded) }));
let passed = 0, failed = 0;

const CALLS = {
  runScript: (module, given) => runScript(module, bytes(given.dump), bytes(given.script), { replies: true, dump: true, session: given.session }),
  runStudy: (module, { dump, baseline, names, study, ...flags }) => runStudy(module, { dump: bytes(dump), baseline: bytes(baseline), names: bytes(names), study: bytes(study), ...flags }),
  runCapture: (module, { files, lists, keepFlushed }) => runCapture(module, { files: filesOf(files), lists: filesOf(lists), keepFlushed }),
};

function check(name, differing) {
  if (differing.length) {
    failed++;
    console.log(`${name}: ${differing.join(', ')} differ`);
  } else passed++;
}

// The names of what differs, of a call and what is wanted of it. Bytes are wanted in base64.
function differingOf(got, wanted) {
  return Object.keys(wanted).filter((key) => key === 'status' ? got.status !== wanted.status : Buffer.from(got[key]).toString('base64') !== wanted[key]);
}

// The form of the call of captures, of a call with too little memory and too small rooms at first. The dump of the stub is
// what the last file has after its first line.
function checkCaptures(module) {
  vm.runInThisContext(`${fs.readFileSync(path.join(__dirname, 'capture_stub.js'), 'utf8')}; stubCaptures();`);
  const file = (name, text) => ({ name, bytes: new TextEncoder().encode(text) }), base64 = (text) => Buffer.from(text).toString('base64');
  const long = 'x'.repeat(2 ** 19), files = [file('r\u00e9', 'one\n'), file('b', `two\n${long}`)];
  const contents = `r\u00e9: printed, 4 LSAs, 1 areas\nb: printed, ${long.length + 4} LSAs, 1 areas\n`;
  const made = { status: 0, contents: base64(contents), notices: base64('database: Opaque 2\n'), warnings: '', dump: base64(long) };
  check('a module with the call of captures', readsCaptures(module) ? [] : ['exports']);
  check('files of captures', differingOf(runCapture(module, { files }), made));
  check('flushed LSAs are kept', differingOf(runCapture(module, { files, keepFlushed: true }), { ...made, notices: base64('database: Opaque 2 flushed\n') }));
  const warnings = base64('l: Missing area 0.0.0.0 type 1 id 3.3.3.3 adv 3.3.3.3\n');
  check('a list', differingOf(runCapture(module, { files, lists: [file('l', 'list')] }), { ...made, status: 1, warnings }));
  const refused = { status: 3, output: '', contents: '', notices: '', warnings: base64('c: UnknownKind at 0\n'), dump: '' };
  check('a refused file', differingOf(runCapture(module, { files: [...files, file('c', 'REFUSED\n')] }), refused));
}

function main() {
  const [modulePath, casesPath] = process.argv.slice(2), module_ = new WebAssembly.Module(fs.readFileSync(modulePath));
  for (const line of fs.readFileSync(casesPath, 'utf8').trim().split('\n')) {
    const { name, call, given, wanted } = JSON.parse(line);
    if (call !== 'runCapture' || readsCaptures(module_)) check(name, differingOf(CALLS[call](module_, given), wanted));
  }
  checkCaptures(module_);
  console.log(`the module: ${passed} passed, ${failed} failed`);
  process.exit(failed || !passed ? 1 : 0);
}

main();
