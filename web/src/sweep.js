// One more failure after the shown line, each by itself: counted in a worker of its own, while the page goes on.

// How many failures are asked for at a time.
const AT_A_TIME = 8;

// Whether an element is in an area, or in any where none is named: a link by its own, a border router in each that it has.
function isWithin(id, area) {
  const { nodes, edges } = state.graph;
  return !area || (edges.has(id) ? edges.get(id).area === area : Boolean(nodes.get(id)?.areas.includes(area)));
}

// The areas of the network, in order of their numbers.
const areasNow = () => [...new Set([...state.graph.nodes.values()].flatMap(({ areas }) => areas))].sort((one, other) => addressNumber(one) - addressNumber(other));

// The lines that fail what is there of a kind, each with its element: all of it, or what is within an area.
function sweepLines(kind, area = null) {
  const { nodes, edges } = state.graph, present = [...nodes.values()].filter((node) => !node.failed && isWithin(node.id, area));
  const links = new Map([...edges.values()].filter((edge) => edge.kind === 'link' && !edgeFailed(edge) && isWithin(edge.key, area)).map((edge) => [cutApart(edge), edge.key]));
  const networks = present.filter((node) => node.kind === 'network').map((node) => [`fail-net ${node.area} ${node.address}`, node.id]);
  const routers = present.filter((node) => node.kind === 'router').map((node) => [`fail ${nameOf(node.id)}`, node.id]);
  return { links: [...links], networks, routers, all: [...links, ...networks, ...routers] }[kind];
}

async function sweep() {
  const before = editor.lines().slice(0, state.shown);
  let lines = sweepLines(state.sweepKind, state.sweepArea);
  const run = { rows: [], count: lines.length, worker: new Calculator(parts), area: state.sweepArea };
  state.sweep = run;
  picture.mode = 'sweep';
  for (let at = 0; at < lines.length && !run.isStopped; at += AT_A_TIME) {
    const some = lines.slice(at, at + AT_A_TIME);
    const study = [...before, inBranch('changes'), ...some.flatMap(([line]) => [line, 'changes', 'loops', 'undo 1'].map(inBranch))];
    const documents = documentsOf(await run.worker.study(asked(study.join('\n')))).filter(({ line }) => line > before.length);
    const refused = some.filter((_, k) => documents[4 * k + 1]?.answer !== 'ok');
    // What is refused is left out, and the others are asked for again: what took it back took back something else.
    if (refused.length) {
      lines = lines.filter((line) => !refused.includes(line));
      run.count = lines.length;
      at -= AT_A_TIME;
      continue;
    }
    run.rows.push(...some.map(([line, key], k) => sweepRow(line, key, documents[0].counts, documents.slice(4 * k + 1, 4 * k + 5))));
    if (state.sweep === run && state.tab === 'Sweep') showTabs();
    if (state.sweep === run) showPicture();
  }
  run.worker.end();
  run.isDone = !run.isStopped;
  if (state.sweep === run) showTabs();
}

// What a failure does by itself: its counts without those of before.
function sweepRow(line, key, first, [, changes, loops]) {
  const counts = Object.fromEntries(['lost', 'gone', 'dearer', 'moved'].map((kind) => [kind, Math.max(0, changes.counts[kind] - first[kind])]));
  return { line, key, ...counts, loops: loops.loops.length, lostInAll: changes.counts.lost };
}

// More failures than this are not written into the study.
const MOST_WRITTEN = 60;

// A sweep as lines of the study: each failure, what it may lose, and that it is taken back.
function sweepExpectations(rows) {
  return rows.flatMap(({ line, lostInAll }) => [line, `expect lost ${lostInAll ? `<= ${lostInAll}` : 'none'}`, 'undo 1']).map(inBranch);
}

// Shows in the picture what a row is about, while the pointer or the keys are at it.
function pointAt(key) {
  return { onpointerenter: () => picture.hover(key), onpointerleave: () => picture.hover(null), onfocus: () => picture.hover(key), onblur: () => picture.hover(null) };
}

// What is drawn on links while a sweep is shown.
const heatOf = (run) => new Map(sweptRows(run).map((one) => [one.key, one]));

const barLength = ({ lost, gone, dearer, moved }) => lost + gone + dearer + moved;

// Shares of a row's counts, against the greatest sum.
function bar(counts, most) {
  return element('span', { class: 'bar' }, ['lost', 'gone', 'dearer', 'moved'].map((kind) => {
    const part = element('i', { class: kind });
    part.style.width = `${100 * counts[kind] / most}%`;
    return part;
  }));
}

// A list of areas to choose from. Of a sweep of all areas the rows of the chosen one are shown; another sweep is forgotten.
function areaChoice() {
  const options = [['', 'all areas'], ...areasNow().map((area) => [area, area === BACKBONE ? `backbone ${area}` : `area ${area}`])];
  const onchange = ({ target }) => {
    state.sweepArea = target.value || null;
    if (state.sweep?.area && state.sweep.area !== state.sweepArea) {
      state.sweep.isStopped = true;
      state.sweep = null;
    }
    showPicture();
    showTabs();
    $('within').focus();
  };
  return element('select', { id: 'within', 'aria-label': 'Within area', onchange }, options.map(([value, label]) => element('option', { value, selected: value === (state.sweepArea ?? '') }, label)));
}

// The rows of a sweep that are within the chosen area, those that lose most first.
function sweptRows(run) {
  const rows = (run?.rows ?? []).filter(({ key }) => isWithin(key, state.sweepArea));
  return rows.sort((a, b) => b.lost - a.lost || b.gone - a.gone || b.dearer - a.dearer);
}

function showSweep() {
  const run = state.sweep;
  const kinds = switched('What fails', [['links', 'links'], ['networks', 'LANs'], ['routers', 'routers'], ['all', 'all']], state.sweepKind, (value) => { state.sweepKind = value; showTabs(); }, 'sweep');
  if (state.isLarge) return 'With this number of routers a sweep takes too long in a browser: ospf-study carries it out.';
  const start = button(run ? 'Run again' : 'Run', () => { sweep(); showTabs(); }, { id: 'sweep', class: 'button first' });
  const choice = [kinds, areaChoice()];
  if (!run) return [chips(choice, start), 'Fails each one by itself, after the shown line, and counts what every router loses.'];
  const rows = sweptRows(run);
  const most = Math.max(1, ...rows.map(barLength));
  const losing = rows.filter(({ lost }) => lost).length;
  const said = run.isDone ? [element('span', { class: 'dim' }, `${rows.length} failures: `, element('b', { class: losing ? 'lost' : '' }, `${losing} lose routes`))]
    : [element('progress', { max: run.count, value: run.rows.length, 'aria-label': 'Progress' }), element('span', { class: 'dim' }, `${run.rows.length} of ${run.count}`), button('Stop', () => { run.isStopped = true; showTabs(); })];
  const cell = (count, kind) => element('span', { class: count ? kind : 'faint' }, String(count));
  const write = run.isDone && rows.length <= MOST_WRITTEN
    ? [element('span', { class: 'grow' }), button('Expect this', () => add(...sweepExpectations(rows)), { title: 'Adds each failure, what it may lose, and that it is taken back' })] : [];
  return [chips(choice, run.isDone || run.isStopped ? start : null, ...said, ...write), scroll(table(['Failure', 'What it does', 'Lost', 'Gone', 'Dearer', 'Moved', 'Loops'], rows.map((one) => row(
    [element('span', { class: 'mono' }, one.line), bar(one, most), cell(one.lost, 'lost'), cell(one.gone, 'lost'), cell(one.dearer, 'dearer'), cell(one.moved, 'moved'), cell(one.loops, 'lost')],
    () => { add(inBranch(one.line)); }, { 'data-line': one.line, ...pointAt(one.key) },
  ))))];
}
