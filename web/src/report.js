// What is printed, for an approver: outcome, a picture after each change, lines with their answers, what is lost, what one more
// failure would do, the paths that lines name, what the answers rest on, and signatures.

const MOST_PRINTED = 40;
const MOST_STEPS = 6;
const MOST_FAILURES = 8;
const MOST_PATHS = 20;

// The lines after which the report has a picture: the last of each row of edits, and the shown line in any case.
function stepLines() {
  const lines = editor.lines(), isDone = (number) => editor.stateOf(number) === 'edit';
  const last = lines.map((_, k) => k + 1).filter((number) => isDone(number) && !isDone(number + 1) && !lines.slice(0, number).some((line) => /^\s*(@[0-7]\s+)?(undo|back)\s/.test(line)));
  return last.length > MOST_STEPS ? [...last.slice(0, MOST_STEPS - 1), last.at(-1)] : last;
}

const STEP_QUESTIONS = ['routers', 'links', 'networks', 'changes', 'loops'];

// The network after each of these lines, with what changed.
async function stepsAfter(numbers) {
  const study = editor.lines().slice(0, numbers.at(-1) ?? 0), all = [];
  study.forEach((line, k) => {
    all.push({ line });
    if (numbers.includes(k + 1)) all.push(...STEP_QUESTIONS.map((word) => ({ line: `@${branchOf(line)} ${word}`, number: k + 1, word })));
  });
  const answered = new Map(numbers.map((number) => [number, {}]));
  for (const document of documentsOf(await calculator.study(asked(all.map(({ line }) => line).join('\n'))))) {
    const { number, word } = all[document.line - 1] ?? {};
    if (number) answered.get(number)[word] = document;
  }
  return numbers.map((number) => ({ number, line: study[number - 1], now: answered.get(number) }));
}

// The paths that lines name, by their lines: as loaded, and after the line, which is where the study asks for them.
async function namedPaths() {
  const isAnswered = (number) => state.answers.study.has(number) && !state.answers.study.get(number).code, all = [];
  const named = editor.lines().map((line, k) => ({ line, number: k + 1, ...pathNamed(line) })).filter(({ address, number }) => address && isAnswered(number)).slice(0, MOST_PATHS);
  const ask = ({ router, address }) => `path ${router} ${address}`;
  named.forEach((one) => all.push({ line: ask(one), number: one.number, when: 'before' }));
  editor.lines().slice(0, named.at(-1)?.number ?? 0).forEach((line, k) => {
    const one = named.find(({ number }) => number === k + 1);
    all.push({ line }, ...(one ? [{ line: `@${branchOf(line)} ${ask(one)}`, number: k + 1, when: 'now' }] : []));
  });
  const found = new Map(named.map(({ number }) => [number, {}]));
  for (const document of documentsOf(await calculator.study(asked(all.map(({ line }) => line).join('\n'))))) {
    const { number, when } = all[document.line - 1] ?? {};
    if (number && document.ends) found.get(number)[when] = document;
  }
  return named.map((one) => ({ ...one, ...found.get(one.number) }));
}

// The named paths; a path that several lines name is in one row where it is the same at all of them.
function pathSection(paths) {
  const said = (path) => path ? pathText(path, nameOf) : 'none', rows = new Map();
  for (const { router, address, before, now, number } of paths) {
    const cells = [`${nameOf(idOf(router))}, ${address}`, said(before), said(now)], key = cells.join();
    rows.set(key, { cells, numbers: [...(rows.get(key)?.numbers ?? []), number] });
  }
  const changed = ([, before, now]) => before === now ? '' : 'changed';
  return rows.size ? [
    element('h2', {}, 'Paths that the study names'),
    table(['From, to', 'As loaded', 'At the line', 'Line'], [...rows.values()].map(({ cells, numbers }) => row([...cells, numbers.join(', ')], null, { class: changed(cells) }))),
  ] : [];
}

async function digestOf(content) {
  const hash = await crypto.subtle.digest('SHA-256', content);
  return [...new Uint8Array(hash)].map((byte) => byte.toString(16).padStart(2, '0')).join('').slice(0, 16);
}

// A line of the study, and what it answered.
function reportLine(line, number) {
  const answer = state.answers.study.get(number), kind = editor.stateOf(number), isPlain = !answer || ['reply', 'back', 'skipped'].includes(kind);
  const said = [isPlain ? '' : answer.answer, editor.said(number)].filter(Boolean).join(', ');
  return element('li', { class: answer?.answer ?? kind }, line || ' ', said ? element('span', {}, `   ${said}`) : null);
}

function changeSection() {
  const all = state.answers.now.changes?.changes ?? [], losses = all.filter(({ change }) => change === 'lost' || change === 'gone');
  const listed = (losses.length ? losses : all).slice(0, MOST_PRINTED), more = (losses.length || all.length) - listed.length;
  if (!listed.length) return [];
  const rows = listed.map((change) => row([change.change, nameOf(change.router), change.prefix ?? '', costText(change.was), costText(change.now), waysText(change.was, nameOf), waysText(change.now, nameOf)]));
  return [
    element('h2', {}, losses.length ? 'What is lost' : 'What changes'), table(['Change', 'Router', 'Prefix', 'Cost was', 'Cost now', 'Next hop was', 'Next hop now'], rows),
    more > 0 ? element('p', {}, `and ${more} more`) : '',
  ];
}

// What changed, router by router: those that lose most first.
function routerSection() {
  const counts = [...changesByRouter(state.answers.now.changes)].sort(([, one], [, other]) => other.lost - one.lost || other.gone - one.gone || other.dearer - one.dearer);
  const rows = counts.slice(0, 12).map(([router, one]) => row([nameOf(router), ...['lost', 'gone', 'dearer', 'moved'].map((kind) => String(one[kind]))]));
  return rows.length ? [element('h2', {}, 'By router'), table(['Router', 'Lost', 'Gone', 'Dearer', 'Moved'], rows)] : [];
}

function sweepSection() {
  if (!state.sweep?.isDone) return [];
  const rows = sweptRows(state.sweep), most = Math.max(1, ...rows.map(barLength)), losing = rows.filter(({ lost }) => lost).length;
  return [
    element('h2', {}, `One more failure${state.sweepArea ? ` within area ${state.sweepArea}` : ''}: ${losing} of ${rows.length} lose routes`),
    table(['Failure', 'What it does', 'Lost', 'Gone', 'Dearer', 'Moved', 'Loops'], rows.slice(0, MOST_FAILURES).map((one) => row([one.line, bar(one, most), ...['lost', 'gone', 'dearer', 'moved', 'loops'].map((kind) => String(one[kind]))]))),
  ];
}

// What the answers rest on, and the command that checks them.
function basisSection({ dump, study }) {
  const { isStrict, dumpName, names, baseline, audit } = state;
  const wrong = audit?.findings?.filter((finding) => finding.class === 'wrong').map(({ kind, count }) => `${kind} ${count}`) ?? [];
  const options = [`--dump ${dumpName}`, baseline && `--baseline ${baseline.name}`, names.length && '--names HOSTS', !isStrict && '--keep-going'].filter(Boolean).join(' ');
  return [
    element('h2', {}, 'What this rests on'),
    element('p', { class: 'facts' }, `Calculated by RFC 2328, section 16, from the databases as they are in the dump, by the module ${parts.hash.slice(0, 16)}. `,
      audit ? (wrong.length ? `The audit of the loaded database finds what may make tables differ from those of the routers: ${wrong.join(', ')}. ` : 'The audit of the loaded database is clean. ') : ''),
    element('p', { class: 'facts' }, `Dump ${dumpName}, SHA-256 ${dump}; study ${$('study-name').value}, SHA-256 ${study}.`),
    element('p', { class: 'facts' }, 'To check: ', element('code', {}, `ospf-study ${options} ${$('study-name').value}`), ` ends with status ${verdict().wrong.length ? 1 : 0}.`),
  ];
}

function stepFigure({ number, line, now }) {
  const { changes, loops } = now;
  const said = changes?.counts ? `${countsText(changes.counts) || 'every table is as before'}; loops ${loops.loops.length}, blackholes ${loops.blackholes.length}` : '';
  return element('figure', {}, element('figcaption', {}, `after line ${number}`, element('code', {}, line.trim())), element('canvas', { 'data-step': number }), element('p', {}, said));
}

// The title of the report and what stands below it: the first two comments at the top of the study, else its name.
function titleLines() {
  const lines = editor.lines(), end = lines.findIndex((line) => line.trim() && !/^\s*#/.test(line));
  const said = lines.slice(0, end < 0 ? lines.length : end).map((line) => line.replace(/^\s*#+\s*/, '').trim()).filter(Boolean);
  return said.length ? said.slice(0, 2) : [$('study-name').value];
}

// What the signs in the pictures mean, each once.
function stepLegend(steps) {
  const drawn = steps.flatMap(({ now }) => legendOf({ ...topology(state.answers.before, now), mode: 'impact', paths: { before: [], now: [] }, impact: changesByRouter(now.changes) }));
  return element('p', { class: 'legend' }, [...new Map(drawn.map((sign) => [sign.textContent, sign])).values()]);
}

// Writes the report and draws its pictures.
async function makeReport() {
  const steps = state.isLarge || $('picture').hidden ? [] : await stepsAfter(stepLines());
  if (!state.audit) await askFor('audit', 'audit', []);
  const paths = await namedPaths();
  const sums = { dump: await digestOf(state.dump), study: await digestOf(bytes(editor.text.value)) };
  const { changes, loops } = state.answers.now, [title, ...more] = titleLines();
  $('report').replaceChildren(...[
    element('h1', {}, title), more.map((line) => element('p', {}, line)), element('p', { class: 'facts' }, `${$('about').textContent}; ${new Date().toISOString().slice(0, 16).replace('T', ' ')} UTC`),
    element('p', { class: `verdict ${$('outcome').className}` }, outcomeText()),
    element('p', { class: 'facts' }, `${state.shown ? `After line ${state.shown}, ${editor.lines()[state.shown - 1].trim()}` : 'As loaded'}: `,
      changes ? countsText(changes.counts) || `every table is as in ${baselineName()}` : 'nothing is edited', loops ? `; loops ${loops.loops.length}, blackholes ${loops.blackholes.length}` : ''),
    element('div', { class: 'steps' }, steps.map(stepFigure)), steps.length ? stepLegend(steps) : element('canvas', { id: 'printed' }),
    element('h2', {}, 'The study, and what each line answers'), element('ol', {}, editor.text.value.trimEnd().split('\n').map((line, k) => reportLine(line, k + 1))),
    ...changeSection(), ...routerSection(), ...sweepSection(), ...pathSection(paths), ...basisSection(sums),
    element('div', { class: 'sign' }, ['Planned by', 'Checked by', 'Approved by'].map((who) => element('div', {}, `${who}, date`))),
  ].flat());
  for (const step of steps) {
    const graph = topology(state.answers.before, step.now);
    spreadParallels(graph.edges);
    drawPrinted($('report').querySelector(`[data-step="${step.number}"]`), { ...graph, impact: changesByRouter(step.now.changes), routeCount: routeCount(step.now.changes), width: steps.length > 1 ? 620 : 1000, height: steps.length > 1 ? 400 : 520 });
  }
  if (!steps.length && !$('picture').hidden) drawPrinted($('printed'), { width: 1000, height: 550 });
}

// A picture of the report, in light colors, of the network that is shown or of another one with the same places.
function drawPrinted(canvas, { width, height, ...shown }) {
  const { theme } = document.documentElement.dataset;
  const own = ['canvas', 'view', 'width', 'height', 'ratio', 'selected', 'hovered', 'colors', 'nodes', 'edges', 'impact', 'routeCount', 'paths', 'ends', 'mode', 'margins'];
  const kept = Object.fromEntries(own.map((name) => [name, picture[name]]));
  document.documentElement.dataset.theme = 'light';
  [canvas.width, canvas.height] = [2 * width, 2 * height];
  Object.assign(picture, { width, height, ratio: 2, selected: null, hovered: null, colors: null, paths: { before: [], now: [] }, ends: [], mode: 'impact', margins: [150, 90], ...shown });
  picture.fit();
  const context = canvas.getContext('2d');
  context.setTransform(2, 0, 0, 2, 0, 0);
  picture.drawIn(context);
  Object.assign(picture, kept);
  document.documentElement.dataset.theme = theme;
  picture.draw();
}

async function printReport() {
  if (!state.graph) return;
  await makeReport();
  print();
}
