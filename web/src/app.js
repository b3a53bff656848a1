// The page: what was answered, and what is shown of it. The study's text is the only state of a plan; all else follows from it.

const MOST_DRAWN = 4000;
// With more routers, the tables of a chosen router alone are calculated.
const MOST_CALCULATED = 2000;
// With more routers, no forecasts, no counts at each line and no microloops.
const MOST_FORECAST = 250;
const SETTLE = 120;
const $ = (id) => document.getElementById(id);
const bytes = (text) => new TextEncoder().encode(text);
const text = (array) => new TextDecoder().decode(array);
const parts = JSON.parse($('parts').textContent);
const source = `<!doctype html>\n${document.documentElement.outerHTML}\n`;
const fromBase64 = (encoded) => Uint8Array.from(atob(encoded), (character) => character.charCodeAt(0));

function toBase64(array) {
  let binary = '';
  for (let at = 0; at < array.length; at += 32768) binary += String.fromCharCode(...array.subarray(at, at + 32768));
  return btoa(binary);
}

// An element, with its attributes and what it contains.
function element(name, attributes = {}, ...children) {
  const made = document.createElement(name);
  for (const [key, value] of Object.entries(attributes)) {
    if (key.startsWith('on')) made.addEventListener(key.slice(2), value);
    else if (value !== false && value !== null && value !== undefined) made.setAttribute(key, value === true ? '' : value);
  }
  made.append(...children.flat(Infinity).filter((child) => child !== null && child !== undefined));
  return made;
}

const button = (label, onclick, attributes = {}) => element('button', { type: 'button', class: 'button', onclick, ...attributes }, label);

// Buttons of which one is pressed.
function switched(label, options, chosen, choose, key) {
  return element('span', { class: 'switch', role: 'group', 'aria-label': label }, options.map(([value, title]) => element('button', {
    type: 'button', 'aria-pressed': String(value === chosen), [`data-${key}`]: value, onclick: () => choose(value),
  }, title)));
}

const state = {
  dump: null, dumpName: '', names: new Uint8Array(), shown: null, chosen: null, selected: null, tab: 'Changes', kind: null, group: 'router',
  filter: '', folded: new Set(), path: null, table: null, match: '', answers: null, graph: null, audit: null, sweep: null, sweepKind: 'all', sweepArea: null,
  found: null, asked: 0, done: 0, savedVerdict: null, networks: [], network: null, baseline: null, picksBaseline: false, isStrict: false,
  stopped: 0, grammar: null, differences: null, foreseen: null, announced: [], menuFrom: null, listsLinks: false, audited: 'findings', sort: { column: null, isDown: false }, places: null,
};
const calculator = new Calculator(parts);
let timer = null;

const picture = new Picture($('picture'), { select: (id) => select(id), menu: (id, x, y) => openMenu(id, x, y) });
const editor = new Editor({ room: $('editor'), text: $('text'), gutter: $('gutter'), drawn: $('drawn') }, {
  change: (nearest) => {
    if (state.chosen) state.chosen.number = nearest(state.chosen.number);
    changed();
  },
  show: (number) => showAfter(number),
  leave: () => $('picture').focus(),
  name: (router) => nameOf(router),
  actions: (at, line, answer) => lineActions(at, line, answer),
  speak: (said) => { $('spoken').textContent = said; },
});

const nameOf = (router) => state.graph?.nodes.get(router)?.label ?? router;
const baselineName = () => state.baseline?.name ?? 'the loaded database';

function isBusy(busy) {
  document.body.dataset.state = busy ? 'busy' : 'ready';
  $('outcome').classList.toggle('running', busy);
}

const asked = (study, more = {}) => ({ dump: state.dump, names: state.names, baseline: state.baseline?.dump ?? null, study: bytes(study), json: true, keepGoing: true, ...more });
const documentsOf = (answer) => text(answer.replies).trim().split('\n').map((line) => JSON.parse(line));

function report(fault) {
  $('fault').textContent = fault;
  $('status').textContent = fault;
  if (state.graph) toast(fault);
}

// ---- the study is carried out

function changed() {
  if (state.sweep) state.sweep.isStopped = true;
  state.sweep = null;
  isBusy(true);
  clearTimeout(timer);
  timer = setTimeout(() => calculate(false), SETTLE);
}

// The line after which the network is shown. A line that was chosen stays with its text as lines come or go above it.
function shownLine(lines) {
  if (!state.chosen) return shownByDefault(lines);
  return Math.max(0, Math.min(lines.length, state.chosen.number));
}

const WRONG = new Set(['failed', 'refused', 'fault']);

// The first line that is not accepted, at which a strict study ends; 0 where there is none.
function stoppingLine({ study }) {
  return state.isStrict ? [...study].find(([, { answer }]) => WRONG.has(answer))?.[0] ?? 0 : 0;
}

// The study with the questions of the page about the state after line `shown`; null where another calculation has begun since,
// or where it was refused.
async function answersAfter(lines, shown, turn) {
  const routers = state.routerCount, isSmall = !state.isLarge && routers <= MOST_FORECAST;
  const { text: study, all } = withQuestions(lines, shown, {
    path: state.path, table: state.table, isLarge: state.isLarge, isSmall, isChanged: state.done > 0 || state.baseline !== null || lines.slice(0, shown).some(isEdit),
    counts: isSmall && lines.filter(isEdit).length * routers <= 1000,
  });
  const answer = await calculator.study(asked(study, { verbose: isSmall }));
  if (turn !== state.asked) return null;
  if (answer.status > 1) {
    report(text(answer.errors).trim() || 'memory ran out');
    isBusy(false);
    return null;
  }
  return readAnswers(text(answer.replies), all);
}

async function calculate(isNew) {
  if (!state.dump) return;
  const turn = ++state.asked, begun = performance.now(), lines = editor.lines();
  isBusy(true);
  let shown = shownLine(lines), answers = await answersAfter(lines, shown, turn);
  if (!answers) return;
  const stopped = stoppingLine(answers);
  if (stopped && shown > stopped) {
    shown = stopped;
    answers = await answersAfter(lines, shown, turn);
    if (!answers) return;
  }
  if (stopped) for (const number of [...answers.study.keys()]) if (number > stopped) answers.study.delete(number);
  Object.assign(state, { answers, shown, stopped, differences: null });
  state.graph = topology(answers.before, answers.now);
  spreadParallels(state.graph.edges);
  state.announced = announcements(shownEdits().map((number) => lines[number - 1]));
  for (const { router, sign } of state.announced) {
    const node = state.graph.nodes.get(idOf(router));
    if (node) node.flag = !node.flag || node.flag === sign ? sign : '±';
  }
  if (isNew || !picture.places.size) await place();
  if (turn !== state.asked) return;
  show();
  $('status').textContent = `answered in ${Math.round(performance.now() - begun)} ms`;
  isBusy(false);
}

async function place() {
  const nodes = [...state.graph.nodes.values()];
  const isDrawn = nodes.length <= MOST_DRAWN;
  $('without').hidden = isDrawn;
  $('picture').hidden = $('modes').hidden = $('zoom').hidden = $('legend').hidden = !isDrawn;
  if (!isDrawn) return;
  const places = nodes.every(({ id }) => state.places?.[id]) ? nodes.map(({ id }) => state.places[id]) : (await calculator.ask('place', placing(state.graph))).places;
  picture.nodes = state.graph.nodes;
  picture.put(nodes.map((node) => node.id), places);
}

// What places are asked for: the number of nodes, and links with their lengths.
function placing({ nodes, edges }) {
  const at = new Map([...nodes.keys()].map((id, k) => [id, k]));
  return { nodes: [...nodes.keys()].map(() => ({})), links: [...edges.values()].map((edge) => [at.get(edge.a), at.get(edge.b), edge.kind === 'transit' ? 62 : 100]) };
}

// ---- what is shown

function show() {
  const { answers, graph } = state;
  const { info, routers, networks } = answers.before;
  const of = (count, word) => `${count} ${word}${count === 1 ? '' : 's'}`;
  $('about').textContent = `${state.dumpName}: ${[of(routers.routers.length, 'router'), of([...graph.edges.values()].filter(({ kind, isNew }) => kind === 'link' && !isNew).length, 'link'), of(networks.networks.length, 'LAN'), of(info.areas, 'area'), of(info.lsas, 'LSA')].join(', ')}${state.baseline ? `; compared with ${state.baseline.name}` : ''}`;
  const names = new Set([...graph.nodes.values()].flatMap((node) => [node.label, node.id]));
  editor.show(answers.study, { shown: state.shown, counts: answers.counts, names, stopped: state.stopped });
  showVerdict();
  showTicks();
  showPicture();
  showCard();
  showTabs();
  $('report').replaceChildren();
  $('found').replaceChildren(...[...graph.nodes.values()].slice(0, 10000).map((node) => element('option', { value: node.label }, node.id === node.label ? '' : node.id)));
}

function showPicture() {
  const { answers, graph } = state;
  picture.impact = changesByRouter(answers.now.changes);
  picture.routeCount = routeCount(answers.now.changes);
  const isPath = state.tab === 'Path';
  picture.paths = isPath ? { before: stepsOf(answers.before.path), now: stepsOf(answers.now.path) } : { before: [], now: [] };
  picture.ends = isPath ? [{ id: state.path?.from, label: 'from' }, ...endsOf(answers.now.path)] : [];
  picture.heat = heatOf(state.sweep);
  picture.selected = state.selected;
  picture.show(graph);
  for (const one of document.querySelectorAll('[data-mode]')) one.setAttribute('aria-pressed', String(one.dataset.mode === picture.mode));
  for (const one of document.querySelectorAll('[data-layer]')) one.setAttribute('aria-pressed', String(picture.layers[one.dataset.layer]));
  showLegend();
}

// A stroke of the picture, as it is drawn there, in the color of the text.
function strokeSample({ width, dash }) {
  const of = (name, attributes) => Object.entries(attributes).reduce((made, [key, value]) => (made.setAttribute(key, value), made), document.createElementNS('http://www.w3.org/2000/svg', name));
  const sample = of('svg', { width: 28, height: 10, viewBox: '0 0 28 10', 'aria-hidden': 'true' });
  sample.append(of('line', { x1: 1, y1: 5, x2: 27, y2: 5, stroke: 'currentColor', 'stroke-width': width, 'stroke-dasharray': dash.join(' ') || 'none' }));
  return sample;
}

// What is drawn in a picture and means something: its signs with their meaning, each only where it is drawn.
function legendOf({ nodes, edges, mode, paths, impact }) {
  const routers = [...nodes.values()].filter((node) => node.kind === 'router'), links = [...edges.values()];
  const has = (...roles) => routers.some((node) => ['abr', 'asbr'].every((role) => node.roles.includes(role) === roles.includes(role)));
  const signs = [
    [true, '○ router'], [has('abr'), '□ ABR'], [has('asbr'), '⬡ ASBR'], [has('abr', 'asbr'), '⯃ ABR and ASBR'], [nodes.size > routers.length, '▭ LAN'], [routers.some((node) => node.drained), '▨ drained', 'dearer'], [routers.some((node) => node.flag), '⚑ announces more (+) or less (−)'],
  ].filter(([is]) => is).map(([, label, kind]) => element('span', { class: kind }, label));
  const sampled = (stroke, label, kind) => element('span', { class: kind }, strokeSample(stroke), ` ${label}`);
  const lines = [
    [links.some(edgeFailed) || routers.some((node) => node.failed), LINK_STROKES.failed, 'failed', 'down'], [links.some(edgeChanged), LINK_STROKES.changed, '10→40 cost set', 'dearer'],
    [links.some((edge) => edgeOneWay(edge) && !edge.isNew), LINK_STROKES.oneWay, 'one way', 'down'], [links.some(({ isNew }) => isNew), LINK_STROKES.isNew, 'new', 'better'],
    [paths.before.length, PATH_STROKES.before, 'path before'], [paths.now.length, PATH_STROKES.now, 'path after', 'now'],
  ].filter(([is]) => is).map(([, ...sample]) => sampled(...sample));
  const kinds = ['lost', 'dearer', 'moved'], changed = [...impact.values()], parts = Object.keys(RING_STROKES).filter((kind) => changed.some((counts) => ringParts(counts)[kind]));
  const rings = mode === 'impact' && parts.length ? [element('span', {}, '◌ share of routes ', parts.map((kind) => sampled(RING_STROKES[kind], `${kind} `, kind)))] : [];
  const heat = mode === 'sweep' ? [element('span', {}, 'if it fails: ', kinds.map((kind) => sampled(HEAT_STROKES[kind], `${kind === 'lost' ? 'loses routes' : kind} `, kind)))] : [];
  const badge = mode === 'impact' && changed.some(({ lost }) => lost) ? [element('span', {}, element('b', { class: 'badge' }, 'n'), ' routes lost')] : [];
  return [...signs, ...lines, ...badge, ...rings, ...heat];
}

function showLegend() {
  $('legend').replaceChildren(...legendOf({ ...state.graph, mode: picture.mode, paths: picture.paths, impact: picture.impact }));
}

// The number of routes of a router, on the average, of which its ring shows shares.
function routeCount(changes) {
  const total = Object.entries(changes?.counts ?? {}).reduce((sum, [kind, count]) => kind.startsWith('router-') ? sum : sum + count, 0);
  return Math.max(1, total / Math.max(1, state.graph ? routersNow().length : 1));
}

// How a path ends, at the routers where it does.
function endsOf(path) {
  const ends = (path?.steps ?? []).filter(({ to }) => !to).map(({ router, end }) => ({ id: router, label: end, isBad: end === 'blackhole' }));
  return [...ends, ...(path?.loops ?? []).map(([router]) => ({ id: router, label: 'loop', isBad: true }))];
}

// The steps of a path on the picture: over a LAN in two.
function stepsOf(path) {
  const steps = [];
  for (const { router, to } of path?.steps ?? []) {
    if (!to) continue;
    const edges = state.graph.nodes.get(router)?.edges ?? [];
    const isNeighbor = edges.some((edge) => edge.kind === 'link' && [edge.a, edge.b].includes(to));
    const lan = !isNeighbor && edges.find((edge) => edge.kind === 'transit' && state.graph.nodes.get(edge.b).edges.some((other) => other.a === to));
    steps.push(...(lan ? [[router, lan.b], [lan.b, to]] : [[router, to]]));
  }
  return steps;
}

// What the study says without the questions of the page.
function verdict() {
  const answers = [...state.answers.study.values()];
  const wrong = answers.filter(({ answer }) => WRONG.has(answer));
  const expectations = answers.filter(({ word }) => word === 'expect');
  const held = expectations.filter(({ answer }) => answer === 'ok').length;
  const skipped = state.stopped ? editor.lines().slice(state.stopped).filter(hasWords).length : 0;
  return { wrong, expectations, held, skipped, refused: wrong.filter(({ answer }) => answer !== 'failed').length };
}

function showVerdict() {
  const { wrong, expectations, held, refused, skipped } = verdict();
  const kind = wrong.length ? 'failed' : expectations.length ? 'ok' : '';
  $('outcome').className = kind;
  $('outcome').querySelector('i').textContent = { failed: '✕', ok: '✓' }[kind] ?? '·';
  $('verdict').textContent = { failed: 'Study fails', ok: 'Study holds' }[kind] ?? 'Nothing expected yet';
  const holding = expectations.length ? `${held} of ${expectations.length} expectations hold` : 'add an expectation to test it';
  $('held').textContent = `${holding}${refused ? ` · ${refused} refused` : ''}${skipped ? ` · ${skipped} not run` : ''}`;
  showCounts();
  const line = state.shown ? editor.lines()[state.shown - 1] : '';
  $('at').replaceChildren(state.shown ? `after line ${state.shown} of ${editor.lines().length}` : 'as loaded', element('b', { title: line }, line || ' '));
  showSaved();
}

function showCounts() {
  const { changes, loops } = state.answers.now, counts = changes?.counts ?? {};
  const of = (...kinds) => kinds.reduce((sum, kind) => sum + (counts[kind] ?? 0), 0);
  const shown = [
    ['lost', of('lost'), 'lost', 'routes lost'], ['gone', of('gone'), 'gone', 'gone'], ['dearer', of('dearer'), 'dearer', 'dearer'], ['moved', of('moved', 'type'), 'moved', 'moved'],
    ['better', of('cheaper', 'gained'), 'better', 'cheaper or new'], ['loops', loops?.loops.length ?? 0, 'Loops', 'loops'], ['blackholes', loops?.blackholes.length ?? 0, 'Loops', 'blackholes'],
  ].filter(([name, count, to]) => (name !== 'better' || count) && (to !== 'Loops' || loops));
  $('counts').replaceChildren(...shown.map(([name, count, to, label]) => element('button', {
    type: 'button', 'data-count': name, class: count ? name : to === 'Loops' ? 'fine' : '', 'aria-pressed': String(to !== 'Loops' && state.kind === to),
    'aria-label': `${count} ${label}: show them`, onclick: () => filterBy(to),
  }, element('b', {}, String(count)), element('span', {}, label))));
}

function filterBy(kind) {
  state.tab = kind === 'Loops' ? 'Loops' : 'Changes';
  if (kind !== 'Loops') state.kind = state.kind === kind ? null : kind;
  showCounts();
  showTabs();
}

function showTicks() {
  const lines = editor.lines();
  $('ticks').replaceChildren(...(lines.length > 60 ? [] : lines.flatMap((line, k) => editor.stateOf(k + 1) ? [element('button', {
    type: 'button', tabindex: -1, class: `${editor.stateOf(k + 1)}${k + 1 === state.shown ? ' shown' : k + 1 > state.shown ? ' after' : ''}`, title: `${k + 1}  ${line}`,
    'aria-label': `line ${k + 1}: ${line}`, onclick: () => showAfter(k + 1),
  }, element('i'))] : [])));
}

// The outcome that a saved page had, beside the one of now.
function showSaved() {
  const { savedVerdict } = state;
  $('saved-note').hidden = !savedVerdict;
  if (!savedVerdict) return;
  const isSame = savedVerdict === saidNow();
  $('saved-note').className = isSame ? 'ok' : 'failed';
  $('saved-note').textContent = isSame ? '✓ calculated again: the same outcome as was saved' : `✕ another outcome than was saved, which was: ${savedVerdict}`;
}

// The outcome, and what changed after the shown line.
function saidNow() {
  const { changes } = state.answers.now;
  return [outcomeText(), changes && countsText(changes.counts)].filter(Boolean).join('; ');
}

const outcomeText = () => `${$('verdict').textContent}: ${$('held').textContent}`;

// A text with names in the place of Router IDs, which documents have.
const named = (said) => said.replace(/\b\d+\.\d+\.\d+\.\d+\b(?!\/)/g, (address) => state.graph?.nodes.get(address)?.label ?? address);

// What can be done about a line that is not accepted; `at` gives its number.
function lineActions(at, line, answer) {
  const mended = mend(line, answer), act = (label, onclick, attributes = {}) => element('button', { type: 'button', onclick, ...attributes }, label);
  return [
    act('Show', () => showWrong(at(), answer), { title: 'The network after this line' }),
    mended && act(answer.found ? 'Expect what was found' : `Write ${mended.word}`, () => editor.change(at(), mended.line), { title: mended.line.trim() }),
    act('Remove', () => editor.remove(at()), { title: 'Removes this line' }),
  ].filter(Boolean);
}

// Where what was found is listed, by what was expected.
const LISTED = { lost: 'Changes', gone: 'Changes', changes: 'Changes', same: 'Changes', loops: 'Loops', blackholes: 'Loops', microloops: 'Loops', audit: 'Audit', path: 'Path', route: 'Path', 'no-route': 'Path', hops: 'Path' };

// Shows the network after a line that is not accepted, and lists what was found.
function showWrong(number, { expected }) {
  const path = pathNamed(editor.lines()[number - 1]);
  state.tab = LISTED[expected] ?? state.tab;
  if (state.tab === 'Changes') state.kind = ['lost', 'gone'].includes(expected) ? expected : null;
  if (state.tab === 'Path' && path) state.path = { from: idOf(path.router), to: path.address };
  if (state.tab === 'Audit') state.audited = 'findings';
  showAfter(number);
}

// A line with what the hint of its refusal names in the place of the word at fault, or one that expects what was found.
function mend(line, { at, hint, expected, found: said }) {
  const word = /^(?:did you mean|the database has|names have|area \S+ has) (\S+)$/.exec(hint ?? '')?.[1];
  if (word && line.split(/\s+/).filter((one) => one === at).length === 1) return { word, line: line.split(/(\s+)/).map((one) => one === at ? word : one).join('') };
  const count = /^(lost|gone|changes) (\d+)/.exec(said ?? '');
  if (!count || !['lost', 'gone', 'changes', 'same'].includes(expected) || /\bnot\b|\bonly\b|\bsame\s+\S/.test(line)) return null;
  return { word: count[0], line: `${/^\s*(@[0-7]\s+)?/.exec(line)[0]}expect ${count[1]} <= ${count[2]}` };
}

// To the next line that is not accepted, or to the one before.
function nextWrong(by) {
  const wrong = [...state.answers.study].filter(([, { answer }]) => WRONG.has(answer)).map(([number]) => number), at = editor.lineOfCaret();
  if (!wrong.length) return;
  const number = by > 0 ? wrong.find((one) => one > at) ?? wrong[0] : wrong.findLast((one) => one < at) ?? wrong.at(-1);
  editor.reveal(number);
  showAfter(number);
}

function showAfter(number) {
  state.chosen = { number };
  calculate(false);
}

// ---- lines are added

// Adds lines after the one that is shown.
function add(...lines) {
  const at = state.shown ?? editor.lines().length;
  editor.insert(at, lines);
  if (state.chosen) state.chosen = { number: at + lines.length };
  toast(`Added: ${lines[0]}${lines.length > 1 ? ` and ${lines.length - 1} more` : ''}`, ['Undo', () => {
    if (state.chosen) state.chosen.number -= lines.length;
    editor.remove(at + 1, lines.length);
  }]);
}

let toastEnd = null;

function toast(said, action = null) {
  $('toast').replaceChildren(element('span', {}, said), ...(action ? [element('button', { type: 'button', onclick: () => { $('toast').hidden = true; action[1](); } }, action[0])] : []));
  $('toast').hidden = false;
  clearTimeout(toastEnd);
  toastEnd = setTimeout(() => { $('toast').hidden = true; }, 6000);
}

// Asks for a word; null where nobody gives one.
function ask(question, value) {
  const dialog = $('ask');
  $('question').textContent = question;
  $('answer').value = value;
  dialog.returnValue = '';
  dialog.showModal();
  $('answer').select();
  return new Promise((done) => dialog.addEventListener('close', () => done(dialog.returnValue === 'ok' ? $('answer').value : null), { once: true }));
}

// ---- saving

function save(name, content, type) {
  const url = URL.createObjectURL(new Blob([content], { type }));
  element('a', { href: url, download: name }).click();
  setTimeout(() => URL.revokeObjectURL(url), 10000);
}

async function saveDump() {
  const study = editor.lines().slice(0, state.shown).filter((line) => wordOf(line) !== 'expect').join('\n');
  const answer = await calculator.study(asked(study, { wantsDump: true, json: false, keepGoing: false }));
  if (answer.status) report(text(answer.errors).trim());
  else save(state.dumpName.replace(/(\.oswp)?$/, '-after.oswp'), answer.dump, 'application/octet-stream');
}

// The page with the dump, the names, the study and its outcome in it, and with the places of what is drawn.
function pageWith() {
  const { dump, dumpName, names, baseline, chosen, isStrict } = state;
  const saved = JSON.stringify({
    dump: toBase64(dump), dumpName, names: toBase64(names), study: editor.text.value, studyName: $('study-name').value, verdict: saidNow(),
    baseline: baseline && { name: baseline.name, dump: toBase64(baseline.dump) }, chosen, isStrict,
    places: Object.fromEntries([...picture.places].map(([id, place]) => [id, place.map((part) => Math.round(10 * part) / 10)])),
  }).replaceAll('<', '\\u003c');
  return source.replace(/(<script type="application\/json" id="saved">)[^<]*/, (_all, tag) => tag + saved);
}

// Opens what a saved page has in it.
async function openSaved(saved) {
  state.savedVerdict = saved.verdict;
  $('strict').checked = state.isStrict = saved.isStrict;
  const baseline = saved.baseline && { name: saved.baseline.name, dump: fromBase64(saved.baseline.dump) };
  if (!(await open(fromBase64(saved.dump), saved.dumpName, { ...saved, names: fromBase64(saved.names), baseline }))) return;
  state.chosen = saved.chosen;
  await calculate(false);
}

// ---- keys and buttons

const idOf = (word) => [...(state.graph?.nodes.values() ?? [])].find((node) => node.label === word || node.id === word)?.id ?? word;

function step(by) {
  showAfter(Math.max(0, Math.min(editor.lines().length, (state.shown ?? 0) + by)));
}

// To the next link of the selected router, or of the router whose links were selected before.
function nextLink() {
  const { nodes, edges } = state.graph, edge = edges.get(state.selected);
  if (nodes.has(state.selected)) state.cycled = state.selected;
  else if (!edge || ![edge.a, edge.b].includes(state.cycled)) state.cycled = edge?.a;
  const links = nodes.get(state.cycled)?.edges ?? [];
  if (links.length) select(links[(links.indexOf(edge) + 1) % links.length].key);
}

const KEYS = {
  '/': () => $('find').focus(), '[': () => step(-1), ']': () => step(1), '?': () => $('keys').showModal(), F8: ({ shiftKey }) => nextWrong(shiftKey ? -1 : 1),
  '+': () => picture.zoom(1.4), '-': () => picture.zoom(0.7), 0: () => picture.fit(), Escape: () => select(null), l: () => nextLink(), r: () => printReport(),
};
const CONTROL_KEYS = { k: () => $('find').focus(), s: () => $('save-study').click(), p: () => printReport() };

function onControlKey(event, isTyped) {
  const key = event.key.toLowerCase();
  if (CONTROL_KEYS[key]) CONTROL_KEYS[key]();
  else if (!isTyped && (key === 'z' || key === 'y')) editor.undo(key === 'y' || event.shiftKey ? 'redo' : 'undo');
  else return;
  event.preventDefault();
}

function onKey(event) {
  const isTyped = event.target.isContentEditable || (/INPUT|TEXTAREA|SELECT/.test(event.target.tagName) && event.target.type !== 'checkbox');
  if (event.altKey || document.querySelector('dialog[open], [popover]:popover-open') || !state.graph) return;
  if (event.ctrlKey || event.metaKey) {
    onControlKey(event, isTyped);
    return;
  }
  if (isTyped && event.key !== 'F8') return;
  if (isMenuKey(event) || (event.key === 'Enter' && event.target === $('picture'))) {
    if (openMenuByKey(event.target)) event.preventDefault();
    return;
  }
  const offered = state.selected ? [...$('card').querySelectorAll('[data-key]')] : [];
  const own = [event.key, event.key.toLowerCase()].map((key) => offered.find((one) => one.dataset.key === key)).find(Boolean);
  const tab = Object.keys(tabs())[Number(event.key) - 1];
  if (own) own.click();
  else if (KEYS[event.key]) KEYS[event.key](event);
  else if (/^[1-9]$/.test(event.key) && tab) showTab(tab);
  else return;
  event.preventDefault();
}

// Selects what is found; a line of the study is added.
function findOrDo(word) {
  const id = idOf(word);
  if (state.graph?.nodes.has(id)) select(id);
  else if (EDITS.has(wordOf(word)) || QUESTIONS.has(wordOf(word))) add(word);
  else if (word) toast(`Neither a router or a network nor a line of the study: ${word}`);
  $('find').value = '';
  $('picture').focus();
}

// A border that is dragged, or moved by arrow keys.
function splitter(id, variable, isAcross) {
  const main = document.querySelector('main'), bar = $(id);
  const size = () => parseFloat(getComputedStyle(main).getPropertyValue(variable));
  const set = (pixels) => {
    const most = (isAcross ? main.clientWidth : main.clientHeight) - 160, value = Math.round(Math.max(120, Math.min(most, pixels)));
    main.style.setProperty(variable, `${value}px`);
    for (const [name, number] of Object.entries({ valuemin: 120, valuemax: most, valuenow: value })) bar.setAttribute(`aria-${name}`, number);
  };
  bar.addEventListener('pointerdown', (event) => bar.setPointerCapture(event.pointerId));
  bar.addEventListener('pointermove', (event) => {
    if (!bar.hasPointerCapture(event.pointerId)) return;
    const { right, bottom } = main.getBoundingClientRect();
    set(isAcross ? right - event.clientX : bottom - event.clientY);
  });
  bar.addEventListener('keydown', (event) => {
    const by = { ArrowLeft: 24, ArrowUp: 24, ArrowRight: -24, ArrowDown: -24 }[event.key];
    if (by) set(size() + by);
  });
  bar.addEventListener('focus', () => set(size()));
}

// What is offered where nothing is typed yet.
const FIRST_LINES = ['expect lost none', 'expect gone none', 'expect loops none', 'expect blackholes none', 'expect microloops none', 'expect audit clean', 'refresh', 'undo 1', 'expect same'];

function listenToLines() {
  const first = { part: '', options: FIRST_LINES.map((word) => ({ word, about: state.grammar?.lines.find((one) => one.word === word.split(' ')[0])?.meaning ?? '' })) };
  const line = new Suggestions($('line'), { offer: (front) => front ? completions(front) : first });
  new Suggestions($('text'), { offer: completeStudy, corner: () => caretPlace(editor) });
  new Suggestions($('find'), { offer: findOptions, isEager: true, shown: showForecasts });
  $('line').onclick = () => line.open(true);
  $('find').onfocus = () => $('find').dispatchEvent(new Event('input'));
  $('find').onkeydown = (event) => {
    if (event.key === 'Enter') findOrDo(event.target.value.trim());
    else if (event.key === 'Escape') {
      event.target.value = '';
      $('picture').focus();
    }
  };
  $('add').onsubmit = (event) => {
    event.preventDefault();
    if ($('line').value.trim()) add($('line').value.trim());
    $('line').value = '';
  };
  $('adds').onclick = ({ target }) => {
    const field = target.dataset.find ? $('find') : target.dataset.line ? $('line') : null;
    if (target.dataset.tab) showTab(target.dataset.tab);
    if (!field) return;
    field.value = target.dataset.find ?? target.dataset.line;
    field.focus();
    field.dispatchEvent(new Event('input'));
  };
}

function listenToPicture() {
  $('modes').onclick = ({ target }) => {
    if (target.dataset.mode) picture.mode = target.dataset.mode;
    if (target.dataset.layer) picture.layers[target.dataset.layer] = !picture.layers[target.dataset.layer];
    if (target.dataset.mode === 'sweep' && state.tab !== 'Sweep') showTab('Sweep');
    else showPicture();
  };
  $('zoom').onclick = ({ target }) => Number(target.dataset.zoom) ? picture.zoom(Number(target.dataset.zoom)) : target.dataset.zoom && picture.fit();
  $('theme').onclick = () => {
    document.documentElement.dataset.theme = document.documentElement.dataset.theme === 'dark' ? 'light' : 'dark';
    picture.draw();
    if (state.graph) showTabs();
  };
}

function listen() {
  listenToLines();
  listenToFiles();
  listenToPicture();
  listenToMenu();
  document.addEventListener('keydown', onKey);
  $('earlier').onclick = () => step(-1);
  $('later').onclick = () => step(1);
  $('outcome').onclick = () => nextWrong(1);
  $('strict').onchange = ({ target }) => {
    state.isStrict = target.checked;
    calculate(false);
  };
  $('save-study').onclick = () => save($('study-name').value || 'plan.study', editor.text.value, 'text/plain');
  $('save-dump').onclick = saveDump;
  $('save-page').onclick = () => save(`${($('study-name').value || 'plan').replace(/\.study$/, '')}.html`, pageWith(), 'text/html');
  $('print').onclick = () => printReport();
  $('help').onclick = () => $('keys').showModal();
  splitter('wider', '--study', true);
  splitter('higher', '--results', false);
}

function begin() {
  document.documentElement.dataset.theme = matchMedia('(prefers-color-scheme: dark)').matches ? 'dark' : 'light';
  $('module').textContent = parts.hash.slice(0, 12);
  listen();
  showSamples();
  showRecipe('FRR');
  isBusy(false);
  const saved = JSON.parse($('saved').textContent);
  if (saved) openSaved(saved);
  calculator.opened.then(({ readsCaptures }) => {
    if (!readsCaptures) return;
    $('kinds').textContent = 'A dump or a saved session (.oswp), or the captures, SNMP walks and prints of a network; with it, if you like, a hosts file for names and a study.';
    $('made').textContent = 'The files may be dropped here too, in place of the dump.';
  }, (error) => report(`this browser cannot run the planner: ${error.message} (it needs WebAssembly with memory64: Chromium 133, Firefox 134)`));
}
