// The tabs of results, each a function that gives what its pane contains.

const MOST_ROWS = 1000;
// With more changes, groups are closed at first.
const MOST_OPEN = 160;
const SIGNS = { lost: '✕', gone: '✕', dearer: '▲', cheaper: '▼', moved: '➜', type: '◆', gained: '+', 'router-gone': '✕', 'router-new': '+' };

const TABS = { Changes: showChanges, Path: showPathTab, Loops: showLoops, Sweep: showSweep, Audit: showAudit, Routes: showRoutes, Elements: showElements, Files: showFiles };

// The tabs that there are: findings only where the dump was made of files.
function tabs() {
  const { Files, ...others } = TABS;
  return state.found ? { ...others, Files } : others;
}

function showTab(name) {
  state.tab = name;
  if (!state.answers) return;
  if (name !== 'Sweep' && picture.mode === 'sweep') picture.mode = 'impact';
  showPicture();
  showTabs();
}

function badges() {
  const { changes, loops } = state.answers.now, { sweep, audit, found: findings } = state;
  const losing = sweep && sweptRows(sweep).filter(({ lost }) => lost).length;
  const wrong = audit?.findings.filter((finding) => finding.class === 'wrong').length;
  return {
    Changes: [changes?.changes.length], Loops: [loops && loops.loops.length + loops.blackholes.length, 'bad'],
    Sweep: [losing, 'bad'], Audit: audit ? [wrong || 'clean', wrong ? 'bad' : 'ok'] : [], Routes: [state.table && nameOf(state.table)], Files: [findings?.warnings.length, 'bad'],
  };
}

function showTabs() {
  const names = Object.keys(tabs()), badge = badges();
  if (!names.includes(state.tab)) state.tab = 'Changes';
  $('tabs').replaceChildren(...names.map((name, k) => element('button', {
    type: 'button', role: 'tab', id: `tab-${name}`, title: String(k + 1), 'aria-selected': String(state.tab === name), tabindex: state.tab === name ? 0 : -1,
    onclick: () => { showTab(name); $(`tab-${name}`).focus(); },
    onkeydown: (event) => {
      const by = { ArrowRight: 1, ArrowLeft: -1 }[event.key];
      if (!by) return;
      showTab(names[(names.indexOf(name) + by + names.length) % names.length]);
      $(`tab-${state.tab}`).focus();
    },
  }, name, badge[name]?.[0] ? element('span', { class: `count ${badge[name][1] ?? ''}` }, String(badge[name][0])) : null)));
  $('pane').setAttribute('aria-labelledby', `tab-${state.tab}`);
  const shown = [TABS[state.tab]()].flat().map((part) => typeof part === 'string' ? element('p', {}, part) : part);
  $('pane').replaceChildren(...shown);
  stopOnce($('pane'));
}

// One stop of the Tab key for all rows of a pane; arrows go from row to row.
function stopOnce(pane) {
  const rows = [...pane.querySelectorAll('tr[tabindex]')];
  rows.forEach((one, k) => { one.tabIndex = k ? -1 : 0; });
  pane.onkeydown = (event) => {
    const at = rows.indexOf(event.target), by = { ArrowDown: 1, ArrowUp: -1 }[event.key];
    if (at < 0 || !by || !rows[at + by]) return;
    event.preventDefault();
    rows[at].tabIndex = -1;
    rows[at + by].tabIndex = 0;
    rows[at + by].focus();
  };
}

function table(heads, rows, attributes = {}) {
  const headOf = (head) => head instanceof Element ? head : element('th', { scope: 'col' }, head);
  return element('table', attributes, element('thead', {}, element('tr', {}, heads.map(headOf))), element('tbody', {}, rows));
}

const scroll = (...children) => element('div', { class: 'scroll' }, children);
const chips = (...children) => element('div', { class: 'chips' }, children);

// A row that does something when it is chosen.
function row(cells, act, attributes = {}) {
  const onkeydown = (event) => { if (event.key === 'Enter') act(); };
  return element('tr', act ? { ...attributes, class: `row ${attributes.class ?? ''}`, tabindex: 0, onclick: act, onkeydown } : attributes, cells.map((cell) => element('td', {}, cell)));
}

function addressIn(prefix) {
  return prefix.split('/')[0];
}

// ---- changes

function isShownChange({ change, router, prefix }) {
  const kinds = { moved: ['moved', 'type'], better: ['cheaper', 'gained'] }[state.kind] ?? [state.kind];
  return (!state.kind || kinds.includes(change)) && (!state.filter || nameOf(router).includes(state.filter) || (prefix ?? '').startsWith(state.filter));
}

function showChanges() {
  const { changes } = state.answers.now;
  if (state.isLarge && !changes && !state.table) return 'Choose a router (/): with this number of routers, its own changes alone are calculated.';
  if (!changes?.changes.length) return state.isLarge ? `${nameOf(state.table)} uses what it used in ${baselineName()}.` : `No router uses anything else than in ${baselineName()}.`;
  const kept = inOrder(changes.changes.filter(isShownChange));
  const chosen = KINDS.filter((kind) => changes.counts[kind]).map((kind) => button([`${SIGNS[kind]} ${kind} `, element('b', {}, String(changes.counts[kind]))], () => {
    state.kind = state.kind === kind ? null : kind;
    showCounts();
    showTabs();
  }, { class: `button chip ${kind}`, 'aria-pressed': String(state.kind === kind) }));
  const group = switched('Group by', [['router', 'By router'], ['prefix', 'By prefix'], ['flat', 'Flat']], state.group, (value) => { state.group = value; showTabs(); }, 'group');
  const filter = element('input', { placeholder: 'Router or prefix', 'aria-label': 'Filter', value: state.filter, size: 14, onchange: (event) => { state.filter = event.target.value.trim(); showTabs(); } });
  const bar = chips(chosen, element('span', { class: 'grow' }), group, filter,
    state.isLarge ? null : button('Expect this', () => add(...expectations(changes).map(inBranch)), { title: 'Adds lines that expect what is lost here, and no more' }));
  return [bar, element('div', { class: 'beside' }, scroll(changeTable(kept)), matrix(changes.changes))];
}

// A cost as a number, to sort by: a route of type 2 after all others, and none at the end.
const costNumber = (route) => !route ? Infinity : route.kind === 'own' ? route.metric : route.kind === 'ext2' ? 2 ** 24 * (route.metric + 1) + route.cost : route.cost;
const addressNumber = (address) => address.split(/[./]/).reduce((sum, part) => 256 * sum + Number(part), 0);
const added = ({ was, now }) => was && now && was.kind === now.kind ? costNumber(now) - costNumber(was) : 0;

// What the columns of changes are sorted by.
const COLUMNS = {
  Change: ({ change }) => KINDS.indexOf(change), Router: ({ router }) => addressNumber(router), Prefix: ({ prefix }) => prefix ? addressNumber(prefix) : -1,
  'Cost was': ({ was }) => costNumber(was), 'Cost now': ({ now }) => costNumber(now), Added: added,
};

// The head of a column, whose button sorts by it, and at the second click the other way round.
function sortedHead(column) {
  const { sort } = state, isSorted = sort.column === column;
  const act = () => {
    state.sort = { column, isDown: isSorted && !sort.isDown };
    showTabs();
    $('pane').querySelector(`[data-column="${column}"]`).focus();
  };
  return element('th', { scope: 'col', 'aria-sort': isSorted ? (sort.isDown ? 'descending' : 'ascending') : null },
    element('button', { type: 'button', 'data-column': column, onclick: act }, `${column}${isSorted ? (sort.isDown ? ' ↓' : ' ↑') : ''}`));
}

function inOrder(changes) {
  const { column, isDown } = state.sort, key = COLUMNS[column];
  if (!key) return changes;
  return [...changes].sort((one, other) => {
    const [left, right] = [key(one), key(other)];
    return left === right ? 0 : (left < right ? -1 : 1) * (isDown ? -1 : 1);
  });
}

const CHANGE_HEADS = () => [...Object.keys(COLUMNS).map(sortedHead), 'Next hop was', 'Next hop now'];

function changeRow({ change, router, prefix, now, was }) {
  const more = added({ was, now });
  const cells = [
    element('b', { class: change }, `${SIGNS[change]} ${change}`), nameOf(router), prefix ?? '', costText(was), costText(now), more ? element('span', { class: change }, `${more > 0 ? '+' : '−'}${Math.abs(more)}`) : '',
    waysText(was, nameOf), waysText(now, nameOf),
  ];
  return row(cells, prefix ? () => showPath(router, addressIn(prefix)) : () => select(router));
}

function changeTable(kept) {
  const heads = CHANGE_HEADS();
  if (state.group === 'flat') return table(heads, [...kept.slice(0, MOST_ROWS).map(changeRow), rest(kept.length, heads.length)]);
  const groups = new Map();
  for (const change of kept) {
    const key = state.group === 'router' ? change.router : change.prefix ?? 'routers';
    groups.set(key, [...(groups.get(key) ?? []), change]);
  }
  const weight = (list) => list.reduce((sum, { change }) => sum + ({ lost: 1000, gone: 300, dearer: 3, type: 1, moved: 1 }[change] ?? 0), 0);
  const sorted = [...groups].sort(([, one], [, other]) => weight(other) - weight(one));
  let left = MOST_ROWS;
  const rows = sorted.slice(0, MOST_ROWS).flatMap(([key, list]) => {
    const isOpen = (kept.length <= MOST_OPEN) !== state.folded.has(key), shown = isOpen ? list.slice(0, left) : [];
    left -= shown.length;
    return [groupRow(key, list, isOpen, heads.length), ...shown.map(changeRow)];
  });
  return table(heads, rows);
}

function groupRow(key, list, isOpen, columns) {
  const flip = () => {
    state.folded[state.folded.has(key) ? 'delete' : 'add'](key);
    showTabs();
  };
  const counts = KINDS.map((kind) => [kind, list.filter(({ change }) => change === kind).length]).filter(([, count]) => count);
  const said = counts.map(([kind, count]) => element('span', { class: kind }, `${count} ${kind}`));
  const attributes = { class: 'row group', tabindex: 0, 'aria-expanded': String(isOpen), onclick: flip, onkeydown: (event) => { if (event.key === 'Enter') flip(); } };
  return element('tr', attributes, element('td', { colspan: columns }, `${isOpen ? '▾' : '▸'} ${state.group === 'router' ? nameOf(key) : key}`, said));
}

const rest = (count, columns) => count > MOST_ROWS ? element('tr', {}, element('td', { colspan: columns, class: 'dim' }, `and ${count - MOST_ROWS} more: filter by router or prefix`)) : null;

const FILLS = { lost: 'lost-fill', gone: 'lost-fill', dearer: 'dearer-fill', type: 'moved-fill', moved: 'moved-fill', cheaper: 'better-fill', gained: 'better-fill' };

// Routers against the prefixes that changed for one of them: the shape of the damage. A cell shows its path.
function matrix(changes) {
  const prefixes = [...new Set(changes.map(({ prefix }) => prefix).filter(Boolean))], routers = [...state.graph.nodes.values()].filter((node) => node.kind === 'router');
  if (routers.length > 60 || prefixes.length > 200 || !prefixes.length) return null;
  const at = new Map(changes.map((change) => [`${change.router} ${change.prefix}`, change]));
  const names = Math.min(90, 10 + 6.6 * Math.max(...routers.map(({ label }) => label.length)));
  const width = Math.max(2, Math.min(20, 300 / prefixes.length)), height = Math.max(3, Math.min(19, 190 / routers.length));
  const canvas = element('canvas', {}), form = { routers, prefixes, at, names, width, height };
  drawMatrix(canvas, form);
  const cellAt = ({ offsetX, offsetY }) => {
    const [x, y] = [Math.floor((offsetX - names) / width), Math.floor(offsetY / height)];
    return prefixes[x] && routers[y] ? { router: routers[y], prefix: prefixes[x] } : null;
  };
  canvas.onpointermove = (event) => {
    const cell = cellAt(event), change = cell && at.get(`${cell.router.id} ${cell.prefix}`);
    canvas.title = cell ? `${cell.router.label} ${cell.prefix}: ${change ? `${change.change}, cost ${costText(change.was)} → ${costText(change.now)}` : 'unchanged'}` : '';
  };
  canvas.onclick = (event) => {
    const cell = cellAt(event);
    if (cell) showPath(cell.router.id, addressIn(cell.prefix));
  };
  return element('div', { class: 'matrix', 'aria-hidden': 'true' }, element('h3', {}, 'router × changed prefix'), canvas);
}

function drawMatrix(canvas, { routers, prefixes, at, names, width, height }) {
  const style = getComputedStyle(document.documentElement), color = (name) => style.getPropertyValue(`--${name}`).trim(), ratio = devicePixelRatio || 1;
  [canvas.width, canvas.height] = [(names + width * prefixes.length) * ratio, height * routers.length * ratio];
  [canvas.style.width, canvas.style.height] = [`${canvas.width / ratio}px`, `${canvas.height / ratio}px`];
  const context = canvas.getContext('2d');
  context.scale(ratio, ratio);
  context.font = `500 ${Math.min(11, height)}px ${color('sans')}`;
  context.textAlign = 'right';
  context.textBaseline = 'middle';
  routers.forEach((node, y) => {
    context.fillStyle = color(node.failed ? 'down' : 'dim');
    if (height >= 8) context.fillText(node.label, names - 6, (y + 0.5) * height);
    prefixes.forEach((prefix, x) => {
      const kind = at.get(`${node.id} ${prefix}`)?.change, left = names + x * width, top = y * height;
      context.fillStyle = color(FILLS[kind] ?? 'none-fill');
      if (!node.failed) context.fillRect(left, top, width - (width > 5), height - (height > 5));
      if (width > 8 && height > 8 && kind && kind !== 'dearer') drawSign(context, kind, left + width / 2 - 0.5, top + height / 2 - 0.5, color('panel'));
    });
  });
}

// The strokes of a sign on a cell, as from where to where: a cross where a route is lost, a dash where it moved, and a plus where
// it is better, so that color is not all.
function signOf(kind) {
  if (kind === 'lost' || kind === 'gone') return [[-3, -3, 3, 3], [3, -3, -3, 3]];
  if (kind === 'moved' || kind === 'type') return [[-3.5, 0, 3.5, 0]];
  return kind === 'cheaper' || kind === 'gained' ? [[-3.5, 0, 3.5, 0], [0, -3.5, 0, 3.5]] : [];
}

function drawSign(context, kind, x, y, stroke) {
  context.beginPath();
  for (const [left, top, right, bottom] of signOf(kind)) context.moveTo(x + left, y + top), context.lineTo(x + right, y + bottom);
  context.strokeStyle = stroke;
  context.lineWidth = 1.5;
  context.stroke();
}

// What is seen, as lines that expect it.
function expectations({ counts }) {
  return [counts.lost ? `expect lost <= ${counts.lost}` : 'expect lost none', counts.gone ? `expect gone <= ${counts.gone}` : 'expect gone none', 'expect loops none'];
}

// ---- path

function showPath(from, to) {
  state.path = { from, to };
  state.tab = 'Path';
  calculate(false);
}

const routeText = (route) => !route ? '' : `${route.prefix} ${route.kind === 'own' ? `own ${route.external}` : route.kind}`;

function pathSide(title, path, other, kind) {
  const seen = new Set((other?.steps ?? []).map((one) => `${one.router} ${one.to}`));
  const rows = (path?.steps ?? []).map((one, k, steps) => row(
    [k && steps[k - 1].router === one.router ? 'or' : nameOf(one.router), one.to ? nameOf(one.to) : one.end, one.out ?? '', one.cost ?? '', costText(one.route ?? null), routeText(one.route)],
    null,
    { class: `${seen.has(`${one.router} ${one.to}`) ? '' : 'differs'}${k && steps[k - 1].router === one.router ? ' alternative' : ''}${one.to ? '' : ` end${one.end === 'blackhole' ? ' bad' : ''}`}` },
  ));
  for (const loop of path?.loops ?? []) rows.push(row([`loop ${loop.map(nameOf).join(', ')}`, '', '', '', '', ''], null, { class: 'end bad' }));
  const routers = new Set((path?.steps ?? []).map(({ router }) => router)).size;
  const [end, was] = [path, other].map((one) => one?.steps?.[0]?.route), more = kind === 'now' && end && was ? added({ was, now: end }) : 0;
  return element('div', { class: `scroll ${kind}` }, element('h3', {}, element('span', { class: 'stroke' }, strokeSample(PATH_STROKES[kind])), title, element('span', { class: 'dim' }, path?.ends ? `${counted(routers, 'router')}, ${path.ends.join(', ')}` : path?.code ? named(found(path)) : 'no answer'), element('span', { class: 'grow' }), end ? costText(end) : '', more ? element('span', { class: more > 0 ? 'dearer' : 'cheaper' }, `${more > 0 ? '+' : '−'}${Math.abs(more)}`) : ''),
    table(['Router', 'Next', 'Out', 'Cost', 'Left', 'Route'], rows));
}

function showPathTab() {
  const { before, now } = state.answers, { path } = state;
  const form = element('form', { class: 'chips', onsubmit: (event) => {
    event.preventDefault();
    const [from, to] = ['from', 'to'].map((name) => event.target.elements[name].value.trim());
    if (from && to) showPath(idOf(from), to);
  } }, element('label', {}, 'From ', element('input', { name: 'from', list: 'found', size: 12, value: path ? nameOf(path.from) : '' })),
  element('label', {}, ' to address ', element('input', { name: 'to', size: 16, value: path?.to ?? '' })), element('button', { class: 'button' }, 'Show'), path ? button('⇄ Way back', wayBack) : null, element('span', { class: 'grow' }),
  path ? [button('Expect delivered', () => add(inBranch(`expect path ${nameOf(path.from)} ${path.to} delivered`))), button('Expect this way', () => add(...thisWay(now.path).map(inBranch)))] : null);
  if (!path) return [form, 'Choose a router and an address: the way of a packet before and now, in the picture too.'];
  return [form, element('div', { class: 'beside' }, pathSide('As loaded', before.path, now.path, 'before'), pathSide(state.shown ? `After line ${state.shown}` : 'Now', now.path, before.path, 'now'))];
}

// The path from the router at which the shown one ends, to where it began.
function wayBack() {
  const { now, before } = state.answers, last = [now, before].map(({ path }) => path?.steps?.find(({ to }) => !to)?.router).find(Boolean);
  if (last) showPath(last, addressAt(state.path.from));
}

// Lines that expect a packet to pass the routers that it passes.
function thisWay(path) {
  const routers = [...new Set((path?.steps ?? []).map(({ router }) => router))].slice(1);
  return routers.map((router) => `expect path ${nameOf(state.path.from)} ${state.path.to} via ${nameOf(router)}`);
}

// ---- loops

function showLoops() {
  const { loops, microloops } = state.answers.now;
  if (!loops) return state.isLarge ? 'Loops are not calculated with this number of routers: ospf-study does.' : 'Loops are calculated once something is edited.';
  const rows = [
    ...(loops?.loops ?? []).map((loop) => row([element('b', { class: 'lost' }, 'loop'), loop.prefix, loop.routers.map(nameOf).join(' ⇄ '), ''], () => showPath(loop.routers[0], addressIn(loop.prefix)))),
    ...(loops?.blackholes ?? []).map((hole) => row([element('b', { class: 'lost' }, 'blackhole'), hole.prefix, nameOf(hole.router), hole.from.map(nameOf).join(', ')], () => showPath(hole.from[0], addressIn(hole.prefix)))),
    ...(microloops?.loops ?? []).slice(0, MOST_ROWS).map((loop) => row([element('b', { class: 'dearer' }, 'may loop'), loop.prefix, loop.routers.map(nameOf).join(' ⇄ '), 'while routers change over'], () => showPath(loop.routers[0], addressIn(loop.prefix)))),
  ];
  const none = 'No loop, and no blackhole that the loaded database does not have.';
  const bar = chips(element('span', { class: 'dim' }, 'over all prefixes, after the shown line'), element('span', { class: 'grow' }),
    ...['loops', 'blackholes', 'microloops'].map((what) => button(`Expect no ${what}`, () => add(inBranch(`expect ${what} none`)))));
  return [bar, rows.length ? scroll(table(['What', 'Prefix', 'Routers', 'From'], rows)) : none];
}

// ---- routes

// Whether a prefix covers an address.
function covers(prefix, address) {
  const [network, length] = prefix.split('/'), size = 2 ** (32 - Number(length));
  return Math.floor(addressNumber(network) / size) === Math.floor(addressNumber(address) / size);
}

// The routes that cover an address, the longest prefix first: the first is the one that packets to it take.
function matchesOf(routes, address) {
  const lengthOf = ({ prefix }) => Number(prefix.split('/')[1]);
  return routes.filter(({ prefix }) => covers(prefix, address)).sort((one, other) => lengthOf(other) - lengthOf(one));
}

// A way with the neighbor, its address, and the router's own interface.
function wayCell(way) {
  const [first, address] = way.kind === 'via' ? [nameOf(way.router), way.addresses.join('/')] : [way.kind, way.address];
  return element('span', { class: 'way' }, element('b', {}, first), address ? ` ${address}` : '', way.out ? element('span', { class: 'dim' }, ` out ${way.out}`) : '');
}

// The router whose routes are listed, and an address for which the longest match is looked for.
function routesForm() {
  const onsubmit = (event) => {
    event.preventDefault();
    const [router, address] = ['router', 'address'].map((name) => event.target.elements[name].value.trim());
    state.match = /^\d+\.\d+\.\d+\.\d+$/.test(address) ? address : '';
    state.table = idOf(router);
    calculate(false);
  };
  return element('form', { class: 'chips', onsubmit }, element('label', {}, 'Router ', element('input', { name: 'router', list: 'found', size: 12, value: state.table ? nameOf(state.table) : '' })),
    element('label', {}, ' address ', element('input', { name: 'address', size: 16, placeholder: 'longest match', value: state.match })), element('button', { class: 'button' }, 'Show'));
}

// A route in the list of those of a router: with what it was where it changed, and why it is so.
function routeRow(route, was) {
  const act = (event) => {
    event.stopPropagation();
    explain(route.prefix, event.target.closest('tr'));
  };
  const why = button('Why', act, { class: 'button bare', 'aria-expanded': 'false', 'aria-label': `Why ${route.prefix} is so`, onkeydown: (event) => event.stopPropagation() });
  const ways = route.kind === 'own' ? 'its own' : route.ways.map(wayCell), wasWays = was?.was ? waysText(was.was, nameOf) : '';
  const cells = [
    was ? element('b', { class: was.change }, `${SIGNS[was.change]} ${was.change}`) : '', route.prefix, route.kind, costText(route), was ? costText(was.was) : '', route.area ?? '',
    [ways, wasWays && wasWays !== waysText(route, nameOf) ? element('span', { class: 'dim' }, ` was ${wasWays}`) : ''], why,
  ];
  return row(cells, () => showPath(state.table, addressIn(route.prefix)));
}

function showRoutes() {
  const { routes, changes } = state.answers.now, form = routesForm();
  if (!state.table || !routes?.routes) return [form, 'Choose a router, here or by Routes in its card.'];
  const was = new Map((changes?.changes ?? []).filter(({ router, prefix }) => router === routes.router && prefix).map((change) => [change.prefix, change]));
  const listed = state.match ? matchesOf(routes.routes, state.match) : routes.routes;
  form.append(element('span', { class: 'grow' }), element('span', { class: 'dim' }, state.match ? `${counted(listed.length, 'route')} for ${state.match}, the longest match first` : counted(routes.routes.length, 'route')));
  const heads = ['Change', 'Prefix', 'Kind', 'Cost', 'Was', 'Area', 'Ways: neighbor, its address, own interface', ''];
  return [form, scroll(table(heads, listed.slice(0, MOST_ROWS).map((route) => routeRow(route, was.get(route.prefix)))))];
}

// Shows below a route why it is what it is, by the rules of RFC 2328; where that is shown already, closes it.
async function explain(prefix, at) {
  const shown = $('pane').querySelector('.drawer'), isOpen = shown?.previousElementSibling === at;
  shown?.previousElementSibling.querySelector('[aria-expanded]').setAttribute('aria-expanded', 'false');
  shown?.remove();
  if (isOpen) return;
  const lines = [...editor.lines().slice(0, state.shown), inBranch(`explain ${nameOf(state.table)} ${prefix}`)];
  const answer = documentsOf(await calculator.study(asked(lines.join('\n')))).findLast(({ word }) => word === 'explain');
  if (!at.isConnected) return;
  at.querySelector('[aria-expanded]').setAttribute('aria-expanded', 'true');
  at.after(element('tr', { class: 'drawer' }, element('td', { colspan: at.cells.length }, answer.code ? named(found(answer)) : reasons(answer))));
  for (const shownRow of [at.nextElementSibling, at]) shownRow.scrollIntoView({ block: 'nearest' });
}

// The rule of a route, its candidates with the used ones first, its least paths, and the LSAs on which it rests.
function reasons({ rule, candidates, steps, rests }) {
  const ordered = [...candidates.filter((one) => one.state === 'used'), ...candidates.filter((one) => one.state !== 'used')];
  const stepText = ({ router, kind, to, out, cost, sum }) => `${nameOf(router)} → ${kind === 'router' ? nameOf(to) : `network ${to}`} out ${out} cost ${cost}, ${sum} in all`;
  const part = (title, listed) => listed.length ? [element('h4', {}, title), element('ul', {}, listed)] : [];
  return [
    element('b', {}, rule ?? 'no route'),
    ...part('Candidates', ordered.map((one) => element('li', { class: one.state === 'used' ? '' : 'dim' }, `${one.state === 'used' ? '✓' : '✕'} ${named(candidateText(one))}`))),
    ...part('Least paths', steps.map((step) => element('li', {}, stepText(step)))), ...part('Rests on', rests.map((lsa) => element('li', {}, named(lsaText(lsa))))),
  ];
}

// ---- elements, audit, files

function showElements() {
  const { nodes, edges } = state.graph;
  const isFailed = (failed) => failed ? element('b', { class: 'lost' }, 'failed') : '';
  const listed = [
    ...[...edges.values()].map((edge) => row([edge.kind === 'link' ? 'link' : 'LAN link', edgeTitle(edge, nodes), edge.area, edge.ends.map((end) => end.now ?? '✕').join(' / '), isFailed(edgeFailed(edge))], () => select(edge.key), { 'data-element': edge.key })),
    ...[...nodes.values()].map((node) => row([node.kind === 'network' ? 'LAN' : ['router', ...node.roles].join(' '), node.label, node.areas.join(', '), '', isFailed(node.failed)], () => select(node.id), { 'data-element': node.id })),
  ];
  return [scroll(table(['What', 'Name', 'Area', 'Cost', ''], [...listed.slice(0, MOST_ROWS), listed.length > MOST_ROWS ? element('tr', {}, element('td', { colspan: 5, class: 'dim' }, `and ${listed.length - MOST_ROWS} more: find them by name (/)`)) : null]))];
}

// What an audit looks for, by docs/STUDY.md, 9.
const AUDIT_KINDS = [
  'nssa', 'area-kind', 'virtual-link', 'area-missing', 'abr-without-backbone', 'abr-without-bit-b', 'split-area',
  'summary-raised', 'summary-not-due', 'summary-missing', 'rfc1583', 'external-without-bit-e', 'undescribed-router',
  'several-networks', 'duplicate-address', 'own-external', 'forward-unreached', 'one-way-link', 'unequal-cost',
  'point-to-multipoint', 'drained', 'unreached-router', 'orphan-lsa', 'opaque', 'max-age',
];

// What the audit says of the loaded database, or how the network after the shown line differs from it, by meaning.
function showAudit() {
  const kinds = [['findings', 'Findings'], ['differences', 'Differences']];
  const which = switched('What is listed', kinds, state.audited, (value) => { state.audited = value; showTabs(); }, 'audited');
  return state.audited === 'findings' ? showFindings(which) : showDifferences(which);
}

function showFindings(which) {
  if (!state.audit) {
    askFor('audit', 'audit', []);
    return [chips(which), 'Calculating.'];
  }
  const bar = chips(which, element('span', { class: 'dim' }, 'what of the loaded database the answers may not be trusted for'), element('span', { class: 'grow' }), button('Expect an audit without findings', () => add('expect audit clean')));
  const sorted = [...state.audit.findings].sort((one, other) => (other.class === 'wrong') - (one.class === 'wrong')), found = new Set(sorted.map(({ kind }) => kind));
  const rows = sorted.map((finding) => {
    const router = routerIn(finding.first);
    const places = button(String(finding.count), (event) => { event.stopPropagation(); listPlaces(finding.kind); }, { class: 'button bare', 'aria-label': `${finding.kind}: list each place` });
    return row([element('b', { class: finding.class === 'wrong' ? 'lost' : 'dim' }, finding.class), finding.kind, places, named(finding.first), finding.meaning, finding.action], router ? () => select(router) : null);
  });
  const clean = element('p', { class: 'quiet' }, rows.length ? 'Not found: ' : 'Clean. Not found: ', AUDIT_KINDS.filter((kind) => !found.has(kind)).join(', '));
  const heads = ['Class', 'Kind', 'Count', 'First', 'Meaning', 'What to do'];
  return [bar, element('div', { class: 'beside' }, scroll(rows.length ? table(heads, rows, { class: 'wraps' }) : '', clean), element('div', { id: 'places', class: 'scroll', hidden: true }))];
}

// Lists each place of the loaded database at which the audit has a finding of a kind; a click selects its router.
async function listPlaces(kind) {
  const [{ places }] = documentsOf(await calculator.study(asked(`audit ${kind}`)));
  if (!$('places')) return;
  $('places').hidden = false;
  $('places').replaceChildren(table([`${kind}: ${counted(places.length, 'place')}`], places.slice(0, MOST_ROWS).map((place) => {
    const router = routerIn(place);
    return row([named(place)], router ? () => select(router) : null);
  }), { class: 'wraps' }));
  stopOnce($('pane'));
}

// The router that a place of the database is about.
const routerIn = (place) => (place.match(/\d+\.\d+\.\d+\.\d+/g) ?? []).find((one) => state.graph.nodes.has(one)) ?? null;

function showDifferences(which) {
  if (!state.differences) {
    askFor('differences', inBranch('differences'), editor.lines().slice(0, state.shown));
    return [chips(which), 'Calculating.'];
  }
  const { differences } = state.differences, bar = chips(which, element('span', { class: 'dim' }, `what the LSAs say after the shown line, and not in ${baselineName()}`));
  if (!differences?.length) return [bar, `No LSA differs from ${baselineName()}.`];
  const rows = differences.slice(0, MOST_ROWS).map(({ change, area, lsa, what }) => {
    const router = lsa && state.graph.nodes.has(lsa.router) ? lsa.router : null;
    return row([change, area ?? '', lsa ? `${LSA_NAMES[lsa.type] ?? `type ${lsa.type}`} ${lsa.id}` : '', lsa ? nameOf(lsa.router) : '', named(what ?? '')], router ? () => select(router) : null);
  });
  return [bar, scroll(table(['Change', 'Area', 'LSA', 'By', 'What'], [...rows, rest(differences.length, 5)], { class: 'wraps' }))];
}

// Asks a question after some lines, and shows its answer in the tab.
async function askFor(key, line, lines) {
  const turn = state.asked, documents = documentsOf(await calculator.study(asked([...lines, line].join('\n'))));
  if (turn !== state.asked) return;
  state[key] = documents.findLast(({ word }) => word === key) ?? { findings: [], differences: [] };
  if (state.tab === 'Audit') showTabs();
}

// What was found in the files that the dump was made of.
function showFiles() {
  const { contents, notices, warnings } = state.found;
  const rows = [['warning', 'lost', warnings], ['notice', 'dearer', notices], ['file', 'dim', contents]].flatMap(([what, kind, lines]) => lines.map((line) => row([element('b', { class: kind }, what), line])));
  return [scroll(table(['What', 'Found'], rows))];
}
