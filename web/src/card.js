// The card of what is selected: what it is, and the lines that it offers, each with what the line would change. The menu of an
// element offers the same.

function select(id) {
  state.selected = id;
  picture.selected = id;
  if (id) picture.reveal(id);
  picture.draw();
  const node = state.graph?.nodes.get(id);
  if (node?.kind === 'router' && state.table !== id) {
    state.table = id;
    if (state.isLarge || state.tab === 'Routes') calculate(false);
  }
  showCard();
}

const endTitle = (edge, end) => `${nameOf(end.router)} to ${nameOf(edge.a === end.router ? edge.b : edge.a)}`;

// The branch of the shown line, before a line for it.
function inBranch(line) {
  const branch = state.shown ? branchOf(editor.lines()[state.shown - 1]) : '0';
  return branch === '0' ? line : `@${branch} ${line}`;
}

// Whether a router has a link to a router or a network that does not cost the most.
const canDrain = (router) => state.graph.nodes.get(router).edges
  .some((edge) => edge.ends.some((end) => end.router === router && end.now !== null && end.now !== 65535));

// The line that cuts all links of two routers, or a router from a LAN.
const cutApart = (edge) => `cut ${nameOf(edge.a)} ${nameOf(edge.b)}`;

// The line that cuts one link: by an address of it where links beside it stay.
function cutLine(edge) {
  const isBeside = ({ key, kind, a, b }) => key !== edge.key && kind === 'link' && [a, b].includes(edge.a) && [a, b].includes(edge.b);
  if (edge.kind === 'transit' || !state.graph.nodes.get(edge.a).edges.some(isBeside)) return cutApart(edge);
  const [end] = edge.ends.filter(({ now }) => now !== null), other = end.router === edge.a ? edge.b : edge.a;
  return `cut ${nameOf(end.router)} ${nameOf(other)} ${end.data}`;
}

async function setCost(edge, end) {
  const cost = await ask(`Cost of ${endTitle(edge, end)}, 0 to 65535`, String(end.now ?? end.was));
  if (cost !== null && cost.trim() !== '') add(inBranch(`set-cost ${nameOf(end.router)} ${end.data} ${cost.trim()}`));
}

// What can be done with an element: a label, a key, and lines or what is done.
function actionsOf(id) {
  const { nodes, edges } = state.graph;
  if (edges.has(id)) return edgeActions(edges.get(id));
  const node = nodes.get(id);
  if (node.kind === 'network') return node.failed ? [] : lanActions(node);
  return [
    !node.failed && { label: 'Fail', key: 'f', lines: [`fail ${nameOf(id)}`] },
    !node.failed && canDrain(id) && { label: 'Drain', key: 'd', lines: [`drain ${nameOf(id)}`] },
    { label: 'Path from here', key: 'p', act: () => askPath(id) },
    { label: 'Path to here', key: 'P', act: () => askPathTo(id) },
    { label: 'Routes', key: 't', act: () => { state.table = id; state.tab = 'Routes'; calculate(false); } },
  ].filter(Boolean);
}

// Of a LAN with more routers each is cut at its link to it alone.
const MOST_CUTS = 6;

function lanActions({ area, address, edges }) {
  const left = edges.filter((edge) => !edgeFailed(edge));
  const cuts = left.length > MOST_CUTS ? [] : left.map((edge) => ({ label: `Cut ${nameOf(edge.a)} from the LAN`, key: null, lines: [cutApart(edge)] }));
  return [{ label: 'Fail the LAN', key: 'f', lines: [`fail-net ${area} ${address}`] }, ...cuts];
}

function edgeActions(edge) {
  return [
    !edgeFailed(edge) && { label: 'Cut', key: 'c', lines: [cutLine(edge)] },
    ...edge.ends.filter((end) => end.now !== null).map((end, k) => ({ label: `Set cost ${endTitle(edge, end)}`, key: k ? null : 's', act: () => setCost(edge, end) })),
  ].filter(Boolean);
}

async function askPath(from) {
  const to = await ask(`Path from ${nameOf(from)} to which address?`, state.path?.to ?? '');
  if (to?.trim()) showPath(from, to.trim());
}

// An address of a router: in a prefix of its own, or of one of its links.
function addressAt(router) {
  const links = state.answers.before.links.links.filter((link) => link.router === router), own = links.find(({ type, of }) => type === 'stub' && of === null);
  return own ? hostIn(own.prefix) : links.find(({ data }) => data)?.data ?? router;
}

async function askPathTo(router) {
  const from = state.path?.from ?? await ask(`Path to ${nameOf(router)} from which router?`, '');
  if (from?.trim()) showPath(idOf(from.trim()), addressAt(router));
}

function aboutElement(id) {
  const { nodes, edges } = state.graph, edge = edges.get(id), node = nodes.get(id);
  if (edge) return edge.ends.map((end) => `${nameOf(end.router)} link ${end.number}, ${end.data}, cost ${end.was}${end.now === null ? ', gone' : end.now !== end.was ? `, now ${end.now}` : ''}`);
  if (node.kind === 'network') return [`Designated Router's address ${node.address}`, `members ${node.members.map(nameOf).join(', ')}`];
  return [...state.announced.filter(({ router }) => idOf(router) === id).map(({ sign, prefix }) => `${sign === '+' ? 'announces' : 'does not announce'} ${prefix}`), `Router ID ${node.id}`, `area${node.areas.length > 1 ? 's' : ''} ${node.areas.join(', ')}`, node.roles.map((role) => role.toUpperCase()).join(' and ')].filter(Boolean);
}

// What has become of an element: `failed`, `drained`, or nothing.
function conditionOf(id) {
  const edge = state.graph.edges.get(id), node = state.graph.nodes.get(id);
  return node?.failed || (edge && edgeFailed(edge)) ? 'failed' : node?.drained ? 'drained' : '';
}

// The actions of an element, and first that the line goes by which it failed or was drained.
function offersOf(id) {
  const culprit = conditionOf(id) ? lineOf(id) : 0;
  return [...(culprit ? [{ label: `Remove line ${culprit}`, key: null, act: () => editor.remove(culprit) }] : []), ...actionsOf(id)];
}

const titleOf = (id) => state.graph.edges.has(id) ? edgeTitle(state.graph.edges.get(id), state.graph.nodes) : state.graph.nodes.get(id).label;
const isElement = (id) => Boolean(id && (state.graph?.nodes.has(id) || state.graph?.edges.has(id)));
const doOffer = ({ act, lines }) => act ? act() : add(...lines.map(inBranch));

// A button for an action: its label, what its lines would change once that is known, and its key.
function offerButton(action, attributes) {
  const { label, key, lines } = action, shift = key === 'P' ? '⇧ ' : '';
  return element('button', { type: 'button', 'data-key': key, ...attributes }, label, lines ? element('span', { class: 'forecast' }, '…') : null,
    key ? element('kbd', { class: lines ? null : 'forecast', 'aria-hidden': 'true' }, `${shift}${key.toUpperCase()}`) : null);
}

// The links of a router, each with what is at its other end, its area and its costs; one that is chosen is selected.
function linkList(id) {
  const { nodes, edges } = state.graph, links = nodes.get(id)?.kind === 'router' ? nodes.get(id).edges : [];
  if (!links.length || edges.has(id)) return null;
  const costs = ({ ends }) => [...ends.filter(({ router }) => router === id), ...ends.filter(({ router }) => router !== id)].map(({ now }) => now ?? '✕').join(' / ');
  const item = (edge) => element('button', { type: 'button', onclick: () => select(edge.key), ...pointAt(edge.key) }, element('b', {}, nameOf(otherEnd(edge, id))), element('span', {}, edge.area), element('span', {}, costs(edge)));
  return element('details', { open: state.listsLinks, ontoggle: ({ target }) => { state.listsLinks = target.open; } }, element('summary', {}, counted(links.length, 'link')), links.map(item));
}

function showCard() {
  const id = state.selected;
  $('card').hidden = !isElement(id);
  if ($('card').hidden) return;
  const condition = conditionOf(id), offers = offersOf(id);
  $('card').replaceChildren(element('h2', {}, titleOf(id), condition ? ` (${condition})` : ''), ...aboutElement(id).map((line) => element('div', { class: 'dim' }, line)),
    offers.length ? element('div', { class: 'actions' }, offers.map((offer) => offerButton(offer, { onclick: () => doOffer(offer) }))) : '', linkList(id) ?? '', button('×', () => select(null), { class: 'button bare close', 'aria-label': 'Close' }));
  forecast(offers, $('card'));
}

// The lines whose edits are done where the network is shown.
function shownEdits() {
  const lines = editor.lines().slice(0, state.shown);
  return doneEdits(lines, branchOf(lines.at(-1) ?? ''), state.answers.study);
}

// The line of the study that names an element, the last one whose edit is done; 0 where there is none.
function lineOf(id) {
  const { nodes, edges } = state.graph, edge = edges.get(id);
  const names = (edge ? [edge.a, edge.b] : [id]).flatMap((one) => [one, nodes.get(one)?.label, nodes.get(one)?.address]).filter(Boolean);
  const lines = editor.lines();
  return shownEdits().findLast((number) => lines[number - 1].split(/\s+/).some((word) => names.includes(word))) ?? 0;
}

// Says beside each action in the card or the menu what its lines would change, against what the shown line has left.
async function forecast(offers, room) {
  const places = [...room.querySelectorAll('span.forecast')], texts = await foreseen(offers.filter(({ lines }) => lines).map(({ lines }) => lines));
  places.forEach((one, k) => { one.textContent = texts[k] ?? ''; });
}

// Forecasts that the card and the menu of an element share.
function foreseen(lists) {
  const key = `${state.asked} ${JSON.stringify(lists)}`;
  if (state.foreseen?.key !== key) state.foreseen = { key, texts: forecasts(lists) };
  return state.foreseen.texts;
}

// What each of some lists of lines would change by itself, in words; nothing in a large network, and nothing of what is refused.
async function forecasts(lists) {
  if (state.isLarge || state.routerCount > MOST_FORECAST) return [];
  const before = editor.lines().slice(0, state.shown), now = state.answers.now.changes?.counts ?? {};
  const lines = lists.flatMap((edits) => [...edits, 'changes', `undo ${edits.length}`]).map(inBranch);
  const documents = documentsOf(await calculator.study(asked([...before, ...lines].join('\n')))).filter(({ line }) => line > before.length);
  // Where one is refused, what takes it back takes back something else.
  if (documents.some(({ answer }) => WRONG.has(answer))) return lists.length === 1 ? [''] : (await Promise.all(lists.map((one) => forecasts([one])))).flat();
  const added = ({ counts }) => Object.fromEntries(Object.keys(counts).map((kind) => [kind, Math.max(0, counts[kind] - (now[kind] ?? 0))]));
  return documents.filter(({ word, counts }) => word === 'changes' && counts).map((one) => countsText(added(one)) || 'no change');
}
