// What the words of a line may be in the network that is open: its areas, routers, links, prefixes and costs.

const routersNow = () => [...state.graph.nodes.values()].filter((node) => node.kind === 'router' && !node.failed);
const linksOf = (router, area) => (state.graph.nodes.get(idOf(router))?.edges ?? []).filter((edge) => !area || edge.area === area);
const otherEnd = (edge, id) => edge.a === id ? edge.b : edge.a;
const optionOf = (id, about) => ({ word: nameOf(id), about });

// What a router is, in a few words.
function aboutRouter({ id, label, areas, roles }) {
  return [id === label ? '' : id, ...roles.map((role) => role.toUpperCase()), areas.length > 1 ? '' : `area ${areas[0]}`].filter(Boolean).join(' · ');
}

// The neighbors of a router: over links, and without an area also over LANs; to set a cost also its own addresses.
function neighborOptions({ ROUTER, AREA, command }) {
  if (command === 'set-cost') return linkOptions({ ROUTER });
  const id = idOf(ROUTER), found = new Map();
  for (const edge of linksOf(ROUTER, AREA)) {
    const cost = edge.ends.find((end) => end.router === id)?.now;
    if (edge.kind === 'link') found.set(otherEnd(edge, id), `cost ${cost ?? 'gone'}`);
    else if (!AREA && command !== 'cut') state.graph.nodes.get(edge.b).members.filter((member) => member !== id).forEach((member) => found.set(member, `over ${nameOf(edge.b)}`));
  }
  return [...found].map(([neighbor, about]) => optionOf(neighbor, about));
}

// The links of a router in an area, by their neighbor where one link leads to it, and by the router's own address.
function linkOptions({ ROUTER, AREA }) {
  const id = idOf(ROUTER), edges = linksOf(ROUTER, AREA);
  return edges.flatMap((edge) => {
    const other = otherEnd(edge, id), end = edge.ends.find(({ router, now }) => router === id && now !== null);
    if (!end) return [];
    const about = `to ${nameOf(other)}, cost ${end.now}`;
    const isOnly = edge.kind === 'link' && edges.filter((one) => otherEnd(one, id) === other).length === 1;
    return [...(isOnly ? [optionOf(other, `cost ${end.now}`)] : []), { word: end.data, about }];
  });
}

// The router's own addresses on its links to a neighbor.
function endOptions({ ROUTER, NEIGHBOR }) {
  const id = idOf(ROUTER), ends = linksOf(ROUTER).filter((edge) => otherEnd(edge, id) === idOf(NEIGHBOR)).flatMap((edge) => edge.ends);
  return ends.filter(({ router, now }) => router === id && now !== null).map(({ data, now }) => ({ word: data, about: `cost ${now}` }));
}

// The cost that a link has now, and the most.
function metricOptions({ ROUTER, AREA, LINK, NEIGHBOR }) {
  const id = idOf(ROUTER), name = LINK ?? NEIGHBOR, link = name && idOf(name);
  const edge = name && linksOf(ROUTER, AREA).find((one) => otherEnd(one, id) === link || one.ends.some((end) => end.router === id && end.data === name));
  const now = edge?.ends.find((end) => end.router === id)?.now;
  return edge ? [{ word: String(now), about: 'its cost now' }, { word: '65535', about: 'no transit' }] : [];
}

// The LANs that a router has a link to.
function lanOptions({ ROUTER }) {
  const id = idOf(ROUTER), edges = linksOf(ROUTER).filter((edge) => edge.kind === 'transit' && !edgeFailed(edge));
  return edges.map((edge) => optionOf(edge.b, `LAN, cost ${edge.ends.find((end) => end.router === id)?.now}`));
}

// The prefixes that are known, each with the routers or the network that it is of.
function knownPrefixes() {
  const { before, now } = state.answers, found = new Map();
  for (const { router, stub, prefix, type } of before.links.links) {
    if (type === 'stub') found.set(prefix, `at ${nameOf(router)}`);
    else if (stub) found.set(stub.prefix, `link of ${nameOf(router)}`);
  }
  for (const { prefix } of before.networks.networks) found.set(prefix, 'LAN');
  for (const { prefix } of [...(now.routes?.routes ?? []), ...(now.changes?.changes ?? [])]) if (prefix && !found.has(prefix)) found.set(prefix, '');
  return [...found];
}

// The first address of a prefix that a host may have.
function hostIn(prefix) {
  const [address, length] = prefix.split('/');
  return Number(length) > 30 ? address : address.replace(/\d+$/, (last) => String(Number(last) + 1));
}

const fixed = (...words) => () => words.map((word) => ({ word, about: '' }));
const VALUES = {
  AREA: () => [...new Set([...state.graph.nodes.values()].flatMap(({ areas }) => areas))].sort().map((word) => ({ word, about: word === BACKBONE ? 'backbone' : 'area' })),
  ROUTER: ({ AREA }) => routersNow().filter(({ areas }) => !AREA || areas.includes(AREA)).map((node) => ({ word: node.label, about: aboutRouter(node) })),
  NEIGHBOR: neighborOptions,
  'NEIGHBOR,..': neighborOptions,
  LINK: linkOptions,
  METRIC: metricOptions,
  ADDRESS: ({ AREA, ROUTER, NEIGHBOR }) => NEIGHBOR ? endOptions({ ROUTER, NEIGHBOR }) : AREA
    ? [...state.graph.nodes.values()].filter((node) => node.kind === 'network' && node.area === AREA && !node.failed).map(({ address, label }) => ({ word: address, about: `LAN ${label}` }))
    : knownPrefixes().map(([prefix, about]) => ({ word: hostIn(prefix), about: `${prefix} ${about}` })),
  PREFIX: ({ ROUTER, command }) => command === 'cut' ? lanOptions({ ROUTER }) : knownPrefixes().map(([word, about]) => ({ word, about })),
  'PREFIX..': () => VALUES.PREFIX({}),
  KIND: fixed(...CLOSED.KIND), 'KIND..': () => (state.audit?.findings ?? []).map(({ kind }) => ({ word: kind, about: '' })),
  OP: fixed(...CLOSED.OP), TYPE: fixed('1', '2'), FORWARD: fixed('0.0.0.0'), TAG: fixed('0'), COUNT: fixed('1'),
  WORD: () => state.grammar.lines.map(({ word, meaning }) => ({ word, about: meaning })),
};

// What may stand at the end of a text of one line: the part that is typed already, and what it may become.
function completions(front) {
  if (front.includes('#') || !state.graph || !state.grammar) return null;
  const words = front.trimStart().split(/\s+/), last = words.pop() ?? '';
  if (/^@/.test(words[0] ?? '')) words.shift();
  const options = state.grammar.next(words).flatMap(({ token, about, named }) => isLiteral(token) ? [{ word: token, about }] : VALUES[token]?.({ ...named, command: words[0] }) ?? []);
  const part = last.slice(last.lastIndexOf(',') + 1), begins = (word) => word.toLowerCase().startsWith(part.toLowerCase());
  const seen = new Set(words.slice(2));
  return { part, options: options.filter(({ word }) => begins(word) && !(words.includes('only') && seen.has(word))) };
}

// What is suggested in the study: at the end of a line, once something stands in it.
function completeStudy(front, after, isAsked) {
  const line = front.slice(front.lastIndexOf('\n') + 1);
  return (isAsked || line.trim()) && /^\s*(\n|$)/.test(after) ? completions(line) : null;
}

// Where the caret of the study is on the screen: its left, its top and its height.
function caretPlace({ field }) {
  const { left, top } = field.caretRect();
  return [left, top, 22];
}

// ---- what is found, or done

// Edits of the elements of the network, as they are called in their cards, and what takes them back. Those that a card offers without
// a key are those of another element.
function actionsNow() {
  const { nodes, edges } = state.graph, actions = [];
  for (const id of [...edges.keys(), ...nodes.keys()]) {
    const title = edges.has(id) ? edgeTitle(edges.get(id), nodes) : nodes.get(id).label;
    for (const { label, key, lines } of actionsOf(id)) if (lines && key) actions.push({ word: `${label.replace(' the LAN', ' LAN')} ${title}`, lines });
    const culprit = conditionOf(id) && !edges.get(id)?.isDown ? lineOf(id) : 0;
    if (culprit) actions.push({ word: `Remove line ${culprit}: ${title} is ${conditionOf(id)}`, act: () => editor.remove(culprit) });
  }
  return actions;
}

const COMMANDS = [
  ['Open files', () => $('files').click()], ['Sweep: each further failure', () => { showTab('Sweep'); sweep(); }], ['Print the report', () => printReport()],
  ['Save this page', () => $('save-page').click()], ['Save the study', () => $('save-study').click()], ['Next line that is not accepted', () => nextWrong(1)], ['Dark or light', () => $('theme').click()],
];

// What a text may mean: a router or a LAN, an edit by its name, a line of the study, or something that the page does.
function findOptions(query) {
  const words = query.toLowerCase().split(/\s+/).filter(Boolean), has = (said) => words.every((word) => said.toLowerCase().includes(word));
  if (!state.graph) return null;
  const rank = ({ label }) => label.toLowerCase() === words[0] ? 0 : label.toLowerCase().startsWith(words[0] ?? '') ? 1 : 2;
  const nodes = [...state.graph.nodes.values()].filter(({ id, label }) => has(`${label} ${id}`)).sort((one, other) => rank(one) - rank(other)).slice(0, words.length ? 4 : 3)
    .map((node) => ({ word: node.label, about: node.kind === 'router' ? aboutRouter(node) : 'LAN', act: () => select(node.id) }));
  const actions = words.length ? actionsNow().filter(({ word }) => has(word)).slice(0, 5).map((action) => ({ ...action, about: '', act: () => doOffer(action) })) : [];
  const commands = COMMANDS.filter(([word]) => has(word)).map(([word, act]) => ({ word, about: '', act }));
  const whole = state.grammar?.isWhole(query.trim().split(/\s+/)) ? [{ word: query.trim(), about: 'add this line', lines: [query.trim()], act: () => add(inBranch(query.trim())) }] : [];
  const line = words.length ? completions(query) : null;
  const isLine = /\s/.test(query) && (line?.options.length || whole.length);
  const options = isLine ? [...whole, ...line.options, ...actions] : [...nodes, ...actions, ...(line?.options ?? []), ...commands];
  // The keys of what is selected work in the picture.
  const inPicture = (act) => () => {
    $('picture').focus();
    act();
  };
  return { part: line?.part ?? query, options: options.map((option) => option.act ? { ...option, act: inPicture(option.act) } : option) };
}

// Says beside what is suggested what its lines would change.
async function showForecasts(options, places) {
  const edits = options.map(({ lines }, k) => [lines, places[k]]).filter(([lines]) => lines && EDITS.has(wordOf(lines[0])));
  if (!edits.length) return;
  const texts = await forecasts(edits.map(([lines]) => lines));
  edits.forEach(([, place], k) => { if (place.isConnected && texts[k]) place.textContent = texts[k]; });
}
