// What the answers of a study mean: documents by their lines, and the topology that `routers`, `links` and `networks` show.

const EDITS = new Set([
  'cost', 'drop-link', 'fail-link', 'fail-net', 'fail-router', 'add-stub', 'summary', 'add-summary', 'add-external',
  'drop-external', 'refresh', 'cut', 'set-cost', 'drain', 'fail',
]);
const QUESTIONS = new Set([
  'table', 'tables', 'compare', 'info', 'routers', 'links', 'networks', 'routes', 'path', 'explain', 'changes', 'differences', 'lost',
  'gone', 'loops', 'microloops', 'sweep', 'audit', 'log', 'help', 'undo', 'redo', 'back', 'expect',
]);
const KINDS = ['lost', 'gone', 'dearer', 'type', 'moved', 'gained', 'cheaper', 'router-gone', 'router-new'];

// The state of a session that is asked for, as lines in a branch: without edits little of it. With `isLarge` the tables of a
// chosen router alone; with `isSmall` loops of the loaded database, and those while routers change over.
function questions(branch, { path, table, isLarge, isSmall, isChanged, edits }) {
  const asked = isChanged ? ['routers', 'links', 'networks'] : [];
  if (isChanged && !isLarge) asked.push('changes');
  if (isSmall || (isChanged && !isLarge)) asked.push('loops');
  if (isChanged && isLarge && table) asked.push(`changes ${table}`);
  if (isSmall && edits) asked.push(`microloops ${edits}`);
  if (path) asked.push(`path ${path.from} ${path.to}`);
  if (table) asked.push(`routes ${table}`);
  return asked.map((line) => `@${branch} ${line}`);
}

const wordOf = (line) => line.replace(/^\s*@[0-7]\s/, '').trim().split(/\s+/)[0];
// Words that take edits back, or carry them out again.
const STEPS = new Set(['undo', 'redo', 'back']);
const isEdit = (line) => EDITS.has(wordOf(line)) || STEPS.has(wordOf(line));
const branchOf = (line) => /^\s*@([0-7])(\s|$)/.exec(line)?.[1] ?? '0';

// The lines of a branch whose edits are done after the last of these lines: what was taken back is not among them. Without answers
// each line counts as accepted.
function doneEdits(lines, branch, answers = null) {
  const done = [], undone = [];
  const step = (from, to, line) => {
    for (let left = Number(line.trim().split(/\s+/).at(-1)); left > 0 && from.length; left--) to.push(from.pop());
  };
  lines.map((line) => line.replace(/#.*/, '')).forEach((line, k) => {
    const word = wordOf(line);
    if (branchOf(line) !== branch || (answers && answers.get(k + 1)?.answer !== 'ok')) return;
    if (EDITS.has(word)) done.push(k + 1), undone.length = 0;
    else if (word === 'redo') step(undone, done, line);
    else if (STEPS.has(word)) step(done, undone, line);
  });
  return done;
}

// The prefixes that edits let routers announce, or not any more, by the words of their lines: the router, `+` or `−`, and the prefix.
function announcements(lines) {
  const words = lines.map((line) => line.replace(/#.*/, '').replace(/^\s*@[0-7]\s/, '').trim().split(/\s+/));
  const at = { 'add-stub': [2, '+', 3], 'add-external': [1, '+', 2], 'drop-external': [1, '−', 2] };
  return words.filter(([word]) => at[word]).map((line) => ({ router: line[at[line[0]][0]], sign: at[line[0]][1], prefix: line[at[line[0]][2]] }));
}

// A study with questions before its first line and after line `shown` (0: before all), and with what each edit has changed
// where `counts` is so. Returns the text, and for each of its lines what it is: of the study by its number, or a question.
function withQuestions(lines, shown, { counts = false, ...asked }) {
  const { path } = asked;
  const before = ['routers', 'links', 'networks', 'info', ...(path ? [`path ${path.from} ${path.to}`] : [])];
  const studied = (line, number) => [
    { line, part: 'study', number },
    ...(counts && isEdit(line) ? [{ line: `@${branchOf(line)} changes`, part: 'counts', number }] : []),
  ];
  const branch = shown ? branchOf(lines[shown - 1]) : '0';
  const edits = doneEdits(lines.slice(0, shown), branch).length;
  const all = [
    ...before.map((line) => ({ line, part: 'before' })),
    ...lines.slice(0, shown).flatMap((line, k) => studied(line, k + 1)),
    ...questions(branch, { ...asked, edits }).map((line) => ({ line, part: 'now' })),
    ...lines.slice(shown).flatMap((line, k) => studied(line, shown + k + 1)),
  ];
  return { text: all.map(({ line }) => line).join('\n'), all };
}

// The documents of a study with questions, by what their lines are.
function readAnswers(replies, all) {
  const read = { before: {}, now: {}, study: new Map(), counts: new Map(), summary: null };
  for (const line of replies.split('\n')) {
    if (!line) continue;
    const document = JSON.parse(line);
    if (document.summary) {
      read.summary = document.summary;
      continue;
    }
    const { part, number } = all[document.line - 1];
    if (part === 'study') read.study.set(number, document);
    else if (part === 'counts') read.counts.set(number, document.counts);
    else if (document.word) read[part][document.word] = document;
  }
  return read;
}

// The line after which the study is shown, where nobody has chosen one: the last, or the last before the edits are undone.
function shownByDefault(lines) {
  const undone = lines.findLastIndex((line) => /^\s*(@0\s+)?(undo|back)\s/.test(line));
  const edited = lines.findLastIndex((line) => EDITS.has(line.trim().split(/\s+/)[0]));
  let last = undone > edited && edited >= 0 ? undone : lines.length;
  while (last > 0 && !lines[last - 1].trim()) last--;
  return last;
}

const linkKey = (link) => `${link.area} ${link.router} ${link.type} ${link.to ?? link.prefix} ${link.data ?? ''}`;
const networkId = (area, address) => `net ${area} ${address}`;

// One end of an edge: the link of a router, as it was and as it is.
function endOf(link, now) {
  const found = now.get(linkKey(link));
  return { router: link.router, number: link.number, data: link.data, was: link.cost, now: found ? found.cost : null };
}

// LANs that have another Designated Router than in the loaded database, by what they are called now: the address of the old one.
function oldAddresses(before, now) {
  const idsOf = (networks) => new Set(networks.map(({ area, address }) => networkId(area, address)));
  const known = idsOf(before), inUse = idsOf(now), found = new Map();
  for (const { area, prefix, address } of now.filter((net) => !known.has(networkId(net.area, net.address)))) {
    const old = before.find((net) => net.area === area && net.prefix === prefix && !inUse.has(networkId(area, net.address)));
    if (old) found.set(networkId(area, address), old.address);
  }
  return found;
}

// The nodes and edges of a picture: of the loaded database and of now, joined. A LAN with another Designated Router is the same.
function topology(before, now) {
  const nodes = new Map(), edges = new Map(), old = oldAddresses(before.networks.networks, now.networks?.networks ?? []);
  const asBefore = (link) => link.type === 'transit' && old.has(networkId(link.area, link.to)) ? { ...link, to: old.get(networkId(link.area, link.to)) } : link;
  const linksNow = now.links?.links.map(asBefore);
  const present = new Map((linksNow ?? before.links.links).map((link) => [linkKey(link), link]));
  const attached = new Set((now.routers?.routers ?? before.routers.routers).map(({ router }) => router));
  const idNow = (area, address) => networkId(area, old.get(networkId(area, address)) ?? address);
  const inUse = new Set((now.networks?.networks ?? before.networks.networks).map((net) => idNow(net.area, net.address)));
  const add = (id, node) => nodes.has(id) || nodes.set(id, { id, edges: [], ...node });
  for (const { router, name, areas, roles } of [...before.routers.routers, ...(now.routers?.routers ?? [])]) {
    add(router, { kind: 'router', router, label: name ?? router, areas, roles, failed: !attached.has(router) });
  }
  for (const { area, prefix, address, members } of [...before.networks.networks, ...(now.networks?.networks ?? [])]) {
    const id = idNow(area, address);
    add(id, { kind: 'network', area, areas: [area], label: prefix, members, failed: !inUse.has(id) });
    nodes.get(id).address = address;
  }
  const known = new Map(before.links.links.map((link) => [linkKey(link), link]));
  for (const link of linksNow ?? []) if (!known.has(linkKey(link))) known.set(linkKey(link), { ...link, isNew: true });
  for (const link of known.values()) addEdge(nodes, edges, link, present);
  for (const edge of edges.values()) edge.isDown = nodes.get(edge.a).failed || nodes.get(edge.b).failed;
  for (const node of nodes.values()) node.drained = node.kind === 'router' && !node.failed && isDrained(node);
  return { nodes, edges };
}

// Whether each link of a router costs the most, and one of them did not.
function isDrained({ id, edges }) {
  const ends = edges.flatMap((edge) => edge.ends).filter((end) => end.router === id && end.now !== null);
  return ends.length > 0 && ends.every((end) => end.now === 65535) && ends.some((end) => end.was !== 65535);
}

// Adds the edge of a link, or its end to an edge that is there.
function addEdge(nodes, edges, link, present) {
  if (link.type !== 'point-to-point' && link.type !== 'transit') return;
  const isLan = link.type === 'transit';
  const other = isLan ? networkId(link.area, link.to) : link.to;
  if (!nodes.has(link.router) || !nodes.has(other)) return;
  const mine = `${link.router}/${link.data}`, theirs = isLan ? other : `${link.to}/${link.peers?.[0] ?? '?'}`;
  const key = `${link.area} ${[mine, theirs].sort().join(' ')}`;
  if (!edges.has(key)) {
    const edge = { key, kind: isLan ? 'transit' : 'link', a: link.router, b: other, area: link.area, ends: [], isNew: !!link.isNew };
    edges.set(key, edge);
    nodes.get(edge.a).edges.push(edge);
    nodes.get(edge.b).edges.push(edge);
  }
  edges.get(key).ends.push(endOf(link, present));
}

const edgeFailed = (edge) => edge.isDown || edge.ends.every((end) => end.now === null);
const edgeChanged = (edge) => edge.ends.some((end) => end.now !== null && end.now !== end.was);
// A link that one end alone has, or had.
const edgeOneWay = (edge) => edge.kind === 'link' && !edge.isDown && edge.ends.filter((end) => end.now !== null).length === 1;
const edgeTitle = (edge, nodes) => `${nodes.get(edge.a).label} – ${nodes.get(edge.b).label}`;

// The changes of each router, counted by kind.
function changesByRouter(changes) {
  const by = new Map();
  for (const { router, change } of changes?.changes ?? []) {
    if (!by.has(router)) by.set(router, Object.fromEntries(KINDS.map((kind) => [kind, 0])));
    by.get(router)[change]++;
  }
  return by;
}

// Counts of changes in words, as `3 lost · 1 dearer`.
function countsText(counts) {
  const said = [
    [counts.lost, 'lost'], [counts.gone, 'gone'], [counts.dearer, 'dearer'], [counts.moved + counts.type, 'moved'],
    [counts.cheaper + counts.gained, 'better'],
  ];
  return said.filter(([count]) => count).map(([count, word]) => `${count} ${word}`).join(' · ');
}

const wayText = (way, name) => way.kind === 'via' ? `via ${name(way.router)}` : way.kind === 'exit' ? 'exit' : 'direct';
const costText = (route) => !route ? 'none' : route.kind === 'own' ? `own ${route.metric}` : route.kind === 'ext2'
  ? `${route.metric} + ${route.cost}` : String(route.cost);
const waysText = (route, name) => !route ? 'none' : route.kind === 'own' ? 'its own' : route.ways.map((way) => wayText(way, name)).join(', ');

// The router and the address whose path a line of a study is about; of a line about a route, the first address of its prefix.
function pathNamed(line) {
  const words = line.replace(/#.*/, '').replace(/^\s*@[0-7]\s/, '').trim().split(/\s+/), isExpected = words[0] === 'expect';
  const [word, router, where] = words.slice(!isExpected ? 0 : words[1] === 'not' ? 2 : 1);
  if (!where) return null;
  if (word === 'path') return { router, address: where };
  return isExpected && ['route', 'no-route', 'hops'].includes(word) ? { router, address: hostIn(where) } : null;
}

// The ways of a path, each as its routers, in the order of its steps; a way ends where it comes to a router again. At most `most`.
function waysOf({ router: from, steps }, most) {
  const next = new Map(), found = [];
  for (const { router, to } of steps ?? []) if (to) next.set(router, new Set([...(next.get(router) ?? []), to]));
  const walk = (way) => {
    const last = way.at(-1), more = way.indexOf(last) < way.length - 1 ? [] : [...(next.get(last) ?? [])];
    if (!more.length) found.push(way);
    for (const to of more) if (found.length < most) walk([...way, to]);
  };
  walk([from]);
  return found;
}

const MOST_WAYS = 3;

// A path in a line: its ways, where they end if it is not delivered, and its cost.
function pathText(path, name) {
  const ways = waysOf(path, MOST_WAYS + 1).map((way) => way.map(name).join(' → ')), shown = ways.slice(0, MOST_WAYS);
  const ends = path.ends.filter((end) => end !== 'delivered' || path.ends.length > 1), cost = path.steps?.[0]?.route ? ` (${costText(path.steps[0].route)})` : '';
  return `${[[...shown, ...(ways.length > MOST_WAYS ? ['other ways'] : [])].join(' or '), ...ends].join(', ')}${cost}`;
}

const counted = (count, one, several = `${one}s`) => `${count} ${count === 1 ? one : several}`;

// What a line did that takes edits back or carries them out again, and what is changed after it.
function stepText(line, counts) {
  const count = Number(/\b(?:undo|redo|back)\s+(\d+)/.exec(line)?.[1] ?? 0), left = counts ? `, ${countsText(counts) || 'no table is changed'}` : '';
  return `${counted(count, 'edit')} ${wordOf(line) === 'redo' ? 'done again' : 'taken back'}${left}`;
}

// What the reply to each question says in a line.
const REPLIES = {
  routers: ({ routers }) => counted(routers.length, 'router'),
  links: ({ links }) => counted(links.length, 'link'),
  networks: ({ networks }) => counted(networks.length, 'network'),
  routes: ({ routes, address }, name) => address && routes.length ? `${routes[0].prefix} ${routes[0].kind} ${costText(routes[0])}, ${waysText(routes[0], name)}` : counted(routes.length, 'route'),
  path: (path, name) => pathText(path, name),
  explain: ({ route, rule }, name) => route ? `${route.kind} ${costText(route)}, ${waysText(route, name)}: ${rule}` : 'no route',
  changes: ({ counts }) => countsText(counts) || 'changes no table',
  differences: ({ differences }) => counted(differences.length, 'difference'),
  lost: ({ pairs }) => counted(pairs.length, 'route'),
  gone: ({ pairs }) => counted(pairs.length, 'route'),
  loops: ({ loops, blackholes }) => `${counted(loops.length, 'loop')}, ${counted(blackholes.length, 'blackhole')}`,
  microloops: ({ loops }) => loops.length ? `${loops.length} may loop while routers change over` : 'none may loop',
  sweep: ({ failures }) => `${counted(failures.filter(({ counts }) => counts?.lost).length, 'failure')} of ${failures.length} with lost routes`,
  audit: ({ wrong, findings, places }) => places ? counted(places.length, 'place') : wrong ? `${wrong} wrong` : findings.length ? `clean, ${counted(findings.length, 'note')}` : 'clean',
  table: ({ routes }) => counted(routes.length, 'route'),
  tables: ({ tables }) => counted(tables.length, 'table'),
  compare: ({ changes }) => counted(changes.length, 'change'),
  info: ({ areas, lsas, done }) => `${counted(areas, 'area')}, ${counted(lsas, 'LSA')}, ${counted(done, 'edit')}`,
  log: ({ lines }) => counted(lines.length, 'edit'),
  help: ({ words }) => words.length === 1 ? words[0].meaning ?? words[0].line : counted(words.length, 'line'),
};
const replyText = (answer, name) => REPLIES[answer.word]?.(answer, name) ?? '';

const LSA_NAMES = { 1: 'router', 2: 'network', 3: 'summary', 4: 'asbr-summary', 5: 'external' };

// An LSA by its area, its type, what it describes and its router.
function lsaText({ area, type, id, router, prefix }) {
  const named = { 1: router, 3: `${prefix} by ${router}`, 5: `${prefix} by ${router}` }[type] ?? `${id} by ${router}`;
  return [area && `area ${area}`, LSA_NAMES[type] ?? `type ${type}`, named].filter(Boolean).join(' ');
}

// A difference of the database, as `differences` writes it.
function differenceText({ change, area, lsa, what }) {
  const of = lsa ? lsaText(lsa) : area ? `area ${area}` : '';
  return `${[change === 'changed' ? '' : change, of].filter(Boolean).join(' ')}: ${what}`;
}

// A candidate for a route: which LSA it is of, how far, and by which rule it is used or not.
function candidateText({ lsa, link, distance, metric, rule }) {
  return `${lsaText(lsa)}${link === null ? '' : ` #${link}`}${distance === null ? '' : ` distance ${distance}`} metric ${metric}: ${rule}`;
}
