// Checks parts of the page that need no browser: the grammar of lines, how they are typed, what becomes of them as others come and
// go, what they answer, what files are, which lines let links fail, and how colors and strokes differ. node parts.cjs HELP, where
// HELP has the reply of ospf-study to `help`, in JSON. The last line is `N passed, M failed`.
'use strict';
const fs = require('node:fs');
const path = require('node:path');
const vm = require('node:vm');

const source = path.join(__dirname, '..', '..', 'web', 'src'), read = (name) => fs.readFileSync(path.join(source, name), 'utf8');
const scripts = ['model.js', 'grammar.js', 'lines.js', 'editor.js', 'files.js', 'card.js', 'sweep.js', 'tabs.js', 'picture.js', 'completion.js'].map(read).join('\n');
const page = 'const text = (array) => new TextDecoder().decode(array), state = {}, nameOf = (id) => state.graph?.nodes.get(id)?.label ?? id;';
// What is checked of these scripts, as if it stood here.
const names = `Grammar doneEdits announcements withQuestions changedRows lineMoves deletedBy TextHistory shownByDefault stepText replyText differenceText candidateText pathNamed pathText kindOf topology edgeOneWay edgeFailed
  cutLine actionsOf sweepLines areasNow sweptRows covers matchesOf LINK_STROKES HEAT_STROKES RING_STROKES PATH_STROKES AREA_DASHES signOf AUDIT_KINDS state`.split(/\s+/);
Object.assign(globalThis, vm.runInThisContext(`'use strict'; (() => { ${page} ${scripts}; return { ${names} }; })()`));
let passed = 0, failed = 0;

function check(name, got, wanted) {
  if (JSON.stringify(got) === JSON.stringify(wanted)) passed++;
  else {
    failed++;
    console.log(`${name}: ${JSON.stringify(got)}, and not ${JSON.stringify(wanted)}`);
  }
}

// What may stand after words, and which lines are whole, by docs/STUDY.md, 5.
function checkGrammar(help) {
  const grammar = new Grammar(help), after = (line) => grammar.next(line.split(' ')).map(({ token }) => token).join(' ');
  check('all words', grammar.next([]).length, help.filter(({ meaning }) => meaning).length);
  check('edits', [after('cost'), after('cost 0.0.0.0'), after('cost 0.0.0.0 r1'), after('cost 0.0.0.0 r1 r2'), after('cost 0.0.0.0 r1 r2 1')], ['AREA', 'ROUTER', 'LINK', 'METRIC', '']);
  check('events', [after('cut'), after('cut r1'), after('cut r1 r2'), after('cut r1 10.1.0.0/24'), after('set-cost r1'), after('set-cost r1 r2'), after('set-cost r1 r2 5'), after('drain'), after('fail')], ['ROUTER', 'NEIGHBOR PREFIX', 'ADDRESS', '', 'NEIGHBOR', 'METRIC', 'both', 'ROUTER', 'ROUTER']);
  check('sweeps', [after('sweep'), after('sweep links'), after('sweep all within'), after('sweep all within 0.0.0.1'), after('sweep nets')], ['links networks routers all', 'within', 'AREA', '', '']);
  check('what may be left out', [after('links'), after('routes r1'), after('expect microloops')], ['ROUTER', 'ADDRESS', 'COUNT none']);
  check('conditions', [after('expect lost'), after('expect not lost only'), after('expect lost only 10.0.0.0/8'), after('expect path r1 10.1.5.1')], ['none <= only', 'PREFIX..', 'PREFIX..', 'via avoids delivered']);
  check('parts of a condition', [after('expect route r1 10.0.0.0/8'), after('expect route r1 10.0.0.0/8 inter'), after('expect route r1 10.0.0.0/8 via r2,r3'), after('expect route r1 10.0.0.0/8 cost')], ['KIND via cost', 'via cost', 'cost', 'OP']);
  check('not', [after('expect').split(' ').at(-1), after('expect not').includes('not '), after('nonsense')], ['not', false, '']);
  const whole = ['refresh', 'undo 1', 'cut r1 r2', 'cut r1 r2 10.0.0.1', 'cut r1 10.1.0.0/24', 'fail r1', 'sweep links', 'sweep all within 0.0.0.1', 'set-cost r1 r2 5 both', 'expect lost none', 'expect lost only 10.0.0.0/8 10.1.0.0/16', 'expect path r1 10.1.5.1 avoids r2', 'links', 'links r1'];
  const parts = ['undo', 'cut r1', 'cut r1 10.1.0.0/24 10.1.0.1', 'fail', 'fail r1 r2', 'sweep', 'sweep all within', 'sweep within 0.0.0.1', 'set-cost r1 r2', 'expect', 'expect lost', 'expect lost only', 'expect path r1 10.1.5.1 via', 'cost 0.0.0.0 r1 r2', 'refresh 1', 'nonsense'];
  check('whole lines', [...whole, ...parts].map((line) => grammar.isWhole(line.split(' '))), [...whole.map(() => true), ...parts.map(() => false)]);
}

// The rows that are drawn again: where, in the place of how many, and how many.
function checkRows() {
  const rows = (old, forms) => changedRows([...old].map((form) => [form]), [...forms].map((form) => [form]));
  check('a row that changed', [rows('abc', 'axc'), rows('abc', 'abc'), rows('ab', 'xy')], [[[1, 1, 1]], [], [[0, 1, 1], [1, 1, 1]]]);
  check('rows that come and go', [rows('abc', 'abxc'), rows('abc', 'bc'), rows('', 'ab'), rows('aab', 'ab'), rows('abcd', 'axd')], [[[2, 0, 1]], [[0, 1, 0]], [[0, 0, 2]], [[1, 1, 0]], [[1, 2, 1]]]);
}

// What commands of deletion take, and the steps that a text took.
function checkTyping() {
  const left = (command, front, back, selected = '') => {
    const text = front + selected + back, [start, end] = deletedBy(command, text, [front.length, front.length + selected.length]);
    return `${text.slice(0, start)}|${text.slice(end)}`;
  };
  check('what is selected is deleted', ['deleteContentBackward', 'deleteWordForward', 'deleteByCut'].map((command) => left(command, 'ab', 'ef', 'cd')), Array(3).fill('ab|ef'));
  check('a character', [left('deleteContentBackward', 'ab', 'c'), left('deleteContentForward', 'ab', 'cd'), left('deleteContentBackward', 'a\n', 'b'), left('deleteContentForward', 'a', '\nb')], ['a|c', 'ab|d', 'a|b', 'a|b']);
  check('a character of two units', [left('deleteContentBackward', 'a\u{1f600}', ''), left('deleteContentForward', '', '\u{1f600}b')], ['a|', '|b']);
  check('nothing before the begin, nor after the end', [left('deleteContentBackward', '', 'a'), left('deleteWordBackward', '', 'a'), left('deleteContentForward', 'a', ''), left('deleteSoftLineForward', 'a', '')], ['|a', '|a', 'a|', 'a|']);
  check('a word', [left('deleteWordBackward', 'fail-link r1  ', 'r2'), left('deleteWordForward', 'cut', ' r1 r2'), left('deleteWordBackward', 'a\n', 'b'), left('deleteWordBackward', 'r1 ->', '')], ['fail-link |r2', 'cut| r2', 'a|b', 'r1 |']);
  check('a line', [left('deleteSoftLineBackward', 'a\nb c', 'd\ne'), left('deleteHardLineForward', 'a\nb c', 'd\ne'), left('deleteHardLineForward', 'a', '\nb')], ['a\n|d\ne', 'a\nb c|\ne', 'a|b']);
  const history = new TextHistory('a');
  history.note('ab', 2, true, 1000);
  history.note('abc', 3, true, 1500);
  history.note('abcd', 4, true, 9000);
  history.note('abcd', 4, true, 9001);
  check('typing that goes on is one step', [history.go(-1).value, history.go(-1).value, history.go(-1)], ['abc', 'a', null]);
  check('it is done again', [history.go(1).value, history.go(1).value, history.go(1)], ['abc', 'abcd', null]);
  history.go(-1);
  history.note('abx', 3, false, 9200);
  const elsewhere = new TextHistory('');
  elsewhere.note('abcdef', 6, true, 1000);
  elsewhere.note('xabcdef', 1, true, 1100);
  check('typing elsewhere is another step', elsewhere.go(-1).value, 'abcdef');
  check('another step takes the place of what was taken back', [history.go(1), history.go(-1).value], [null, 'abc']);
}

// What replies say in a line, of documents of docs/study-schema.json.
function checkReplies() {
  const route = { prefix: '10.0.0.0/8', kind: 'ext2', cost: 7, metric: 20, area: null, ways: [{ kind: 'via', out: null, router: 'r2', addresses: [] }, { kind: 'direct', out: null }] };
  const counts = Object.fromEntries(['lost', 'gone', 'dearer', 'moved', 'type', 'cheaper', 'gained'].map((kind) => [kind, 0])), said = (word, document) => replyText({ word, ...document }, (router) => router);
  check('numbers', [said('routers', { routers: [1] }), said('links', { links: [1, 2] }), said('lost', { pairs: [] }), said('log', { lines: ['refresh'] })], ['1 router', '2 links', '0 routes', '1 edit']);
  check('routes', [said('routes', { routes: [route, route], address: null }), said('routes', { routes: [route], address: '10.1.1.1' }), said('routes', { routes: [], address: '10.1.1.1' })], ['2 routes', '10.0.0.0/8 ext2 20 + 7, via r2, direct', '0 routes']);
  check('why', [said('explain', { route, rule: '16.4 type 2 external' }), said('explain', { route: null, rule: null })], ['ext2 20 + 7, via r2, direct: 16.4 type 2 external', 'no route']);
  check('changes', [said('changes', { counts: { ...counts, lost: 2, gone: 1, type: 1, moved: 3, gained: 1 } }), said('changes', { counts })], ['2 lost · 1 gone · 4 moved · 1 better', 'changes no table']);
  check('loops', [said('loops', { loops: [1], blackholes: [] }), said('microloops', { loops: [1, 2] }), said('microloops', { loops: [] })], ['1 loop, 0 blackholes', '2 may loop while routers change over', 'none may loop']);
  check('an audit', [said('audit', { wrong: 0, findings: [] }), said('audit', { wrong: 0, findings: [1] }), said('audit', { wrong: 3, findings: [1, 2] }), said('audit', { places: [1] })], ['clean', 'clean, 1 note', '3 wrong', '1 place']);
  const steps = ['undo 1', '@2 back 2', 'redo 1'].map((line) => stepText(line, null)), left = stepText('undo 3', { ...counts, lost: 2 });
  check('steps back', [...steps, left, stepText('undo 1', counts)], ['1 edit taken back', '2 edits taken back', '1 edit done again', '3 edits taken back, 2 lost', '1 edit taken back, no table is changed']);
  const lsa = (type, rest) => ({ type, id: '10.0.0.1', router: '1.1.1.1', ...rest });
  const written = [
    { change: 'changed', area: '0.0.0.0', lsa: lsa(1, { area: '0.0.0.0' }), what: 'gone #2 stub 10.4.0.0/16, cost 1' }, { change: 'gone', area: null, lsa: lsa(5, { prefix: '10.90.0.0/16' }), what: 'type 2 metric 20' },
    { change: 'new', area: '0.0.0.1', lsa: lsa(4, { area: '0.0.0.1' }), what: 'metric 3' }, { change: 'new', area: '0.0.0.3', lsa: null, what: 'kind stub' },
  ].map(differenceText);
  const candidates = [{ lsa: lsa(2, { prefix: '10.0.0.0/24', area: '0.0.0.1' }), link: null, distance: null, metric: 0, rule: '16.1 MaxAge' }, { lsa: lsa(1, { area: '0.0.0.0' }), link: 3, distance: 7, metric: 1, rule: '16.1 costs more' }].map(candidateText);
  check('candidates', candidates, ['area 0.0.0.1 network 10.0.0.1 by 1.1.1.1 metric 0: 16.1 MaxAge', 'area 0.0.0.0 router 1.1.1.1 #3 distance 7 metric 1: 16.1 costs more']);
  check('differences', written, ['area 0.0.0.0 router 1.1.1.1: gone #2 stub 10.4.0.0/16, cost 1', 'gone external 10.90.0.0/16 by 1.1.1.1: type 2 metric 20', 'new area 0.0.0.1 asbr-summary 10.0.0.1 by 1.1.1.1: metric 3', 'new area 0.0.0.3: kind stub']);
}

// Edits that are done after some lines, and what they let routers announce.
function checkEdits() {
  const lines = ['cost 0.0.0.0 r1 r2 1', 'expect lost none', 'fail-router r3 # undo 2', 'undo 1', 'refresh', '@1 refresh', 'undo 2', 'redo 1', 'undo 9'];
  check('edits that are done', [3, 4, 5, 6, 7, 8, 9].map((count) => doneEdits(lines.slice(0, count), '0').join()), ['1,3', '1', '1,5', '1,5', '', '1', '']);
  check('nothing is done again after another edit', doneEdits(['refresh', 'undo 1', 'refresh', 'redo 1'], '0'), [3]);
  check('of another branch', doneEdits(lines, '1'), [6]);
  check('a refused one is not', doneEdits(lines.slice(0, 5), '0', new Map([[1, { answer: 'refused' }], [3, { answer: 'ok' }], [5, { answer: 'ok' }]])), [3, 5]);
  const { text: asked } = withQuestions(['refresh', 'undo 1', 'refresh'], 3, { isSmall: true, isChanged: true });
  check('microloops of these alone', asked.split('\n').filter((line) => line.includes('microloops')), ['@0 microloops 1']);
  const said = announcements(['add-stub 0.0.0.1 r5 10.9.0.0/24 1', ' @2 add-external r1 10.8.0.0/16 2 20 0.0.0.0 0', 'drop-external r1 0.0.0.0/0 # why', 'fail-router r1']).map((one) => Object.values(one).join(' '));
  check('what is announced', said, ['r5 + 10.9.0.0/24', 'r1 + 10.8.0.0/16', 'r1 − 0.0.0.0/0']);
}

// Where lines go, and the line that takes the place of one that is gone.
function checkLines() {
  const moves = (old, lines) => {
    const { moved, nearest } = lineMoves(old, lines);
    return old.map((_, k) => [moved(k + 1), nearest(k + 1)]);
  };
  check('a line above', moves(['a', 'b'], ['x', 'a', 'b']), [[2, 2], [3, 3]]);
  check('a line below', moves(['a', 'b'], ['a', 'b', 'x']), [[1, 1], [2, 2]]);
  check('a line that is gone', moves(['a', 'b', 'c'], ['a', 'c']), [[1, 1], [null, 1], [2, 2]]);
  check('a line that is written again', moves(['a', 'b', 'c'], ['a', 'x', 'c']), [[1, 1], [null, 2], [3, 3]]);
  check('a line in two', moves(['a', 'bc'], ['a', 'b', 'c']), [[1, 1], [null, 2]]);
  check('no line of before', moves(['a'], ['x', 'y']), [[null, 1]]);
}

// The line after which a network is shown at first: the last that is not blank, or the last of these before edits are undone.
function checkShown() {
  const shown = (...lines) => shownByDefault(lines);
  check('the shown line', [shown(''), shown('cost 0.0.0.0 r1 1 1', 'expect lost none', ''), shown('# plan', 'refresh', '# why', '', 'undo 1', 'expect same')], [0, 2, 3]);
  check('edits after what is undone', shown('refresh', 'undo 1', 'refresh', 'expect same'), 4);
}

// What an audit looks for is what docs/study-schema.json lists.
function checkAuditKinds() {
  const schema = JSON.parse(fs.readFileSync(path.join(__dirname, '..', '..', 'docs', 'study-schema.json'), 'utf8'));
  check('kinds of an audit', AUDIT_KINDS, schema.$defs.audit_kind.enum);
}

function checkKinds() {
  const kind = (name, content) => kindOf(name, typeof content === 'string' ? new TextEncoder().encode(content) : Uint8Array.from(content));
  check('a dump', kind('net', 'OSWP\u0001\u0001'), 'dump');
  check('a study by its name', kind('a.study', ''), 'study');
  check('a study by its lines', kind('plan.txt', '# plan\nexpect lost none\n'), 'study');
  check('names', [kind('hosts', '1.1.1.1 r1\n'), kind('names.txt', '# of routers\n1.1.1.1 r1\n::1 localhost\n')], ['names', 'names']);
  check('a list', kind('r1.list', '       Router Link States (Area 0.0.0.0)\n\nLink ID         ADV Router      Age\n3.3.3.3 3.3.3.3 2\n'), 'list');
  check('a print', kind('r1.txt', '  OSPF Router with ID (1.1.1.1)\n\n  LS age: 5\n  Link ID  ADV Router\n'), 'capture');
  check('a packet capture', kind('a.pcap', [0xd4, 0xc3, 0xb2, 0xa1, 2, 0, 4, 0]), 'capture');
}

const router = (id) => ({ router: id, name: null, areas: ['0.0.0.0'], roles: [] });
const end = (from, to, data, peer) => ({ router: from, area: '0.0.0.0', number: 1, type: 'point-to-point', cost: 10, to, data, peers: [peer] });
const LINK = [end('1.1.1.1', '2.2.2.2', '10.0.0.1', '10.0.0.2'), end('2.2.2.2', '1.1.1.1', '10.0.0.2', '10.0.0.1')];
const PARALLEL = [end('1.1.1.1', '2.2.2.2', '10.0.1.1', '10.0.1.2'), end('2.2.2.2', '1.1.1.1', '10.0.1.2', '10.0.1.1')];
const networkOf = (links) => ({ routers: { routers: ['1.1.1.1', '2.2.2.2'].map(router) }, links: { links }, networks: { networks: [] } });

// A link of which one end is gone is one-way; it failed where both are gone, or a router.
function checkLinks() {
  const before = networkOf(LINK), stateOf = (now) => [...topology(before, now).edges.values()].map((edge) => edgeFailed(edge) ? 'failed' : edgeOneWay(edge) ? 'one way' : 'plain').join(' ');
  check('links', [LINK, LINK.slice(1), []].map((left) => stateOf({ links: { links: left } })), ['plain', 'one way', 'failed']);
  check('a link of a failed router', stateOf({ links: { links: LINK.slice(1) }, routers: { routers: [router('2.2.2.2')] } }), 'failed');
}

// The lines that let links and routers fail: none for what has failed, and one of two parallel links by its ends.
function checkFailures() {
  const failures = (before, now) => {
    state.graph = topology(before, now);
    return sweepLines('all').map(([line]) => line);
  };
  const routers = ['fail 1.1.1.1', 'fail 2.2.2.2'];
  check('failures', failures(networkOf(LINK), {}), ['cut 1.1.1.1 2.2.2.2', ...routers]);
  check('after a failure', failures(networkOf(LINK), { links: { links: LINK.slice(1) }, routers: { routers: [router('2.2.2.2')] } }), routers.slice(1));
  check('of a one-way link', failures(networkOf(LINK), { links: { links: LINK.slice(1) } }), ['cut 1.1.1.1 2.2.2.2', ...routers]);
  check('of parallel links', failures(networkOf([...LINK, ...PARALLEL]), {}), ['cut 1.1.1.1 2.2.2.2', ...routers]);
  const cuts = [...state.graph.edges.values()].map(cutLine);
  check('one of them', cuts, ['cut 1.1.1.1 2.2.2.2 10.0.0.1', 'cut 1.1.1.1 2.2.2.2 10.0.1.1']);
}

// What card and menu offer at a router, at links and at a LAN: the lines of each, and its key.
function checkOffers() {
  const drained = LINK.map((link) => ({ ...link, cost: 65535 })), lan = { area: '0.0.0.0', prefix: '10.8.0.0/24', address: '10.8.0.2', members: ['1.1.1.1', '2.2.2.2'] };
  const toLan = { router: '1.1.1.1', area: '0.0.0.0', number: 2, type: 'transit', cost: 5, to: '10.8.0.2', data: '10.8.0.1' };
  const offered = (before, now, find) => {
    state.graph = topology(before, now);
    const { nodes, edges } = state.graph, id = find([...edges.values()])?.key ?? [...nodes.keys()].find(find);
    return actionsOf(id).map(({ label, key, lines = [] }) => [label, key, ...lines].join(' '));
  };
  const isFirst = (id) => id === '1.1.1.1', paths = ['Path from here p', 'Path to here P', 'Routes t'];
  check('at a router', offered(networkOf(LINK), {}, isFirst), ['Fail f fail 1.1.1.1', 'Drain d drain 1.1.1.1', ...paths]);
  check('at a drained router', offered(networkOf(LINK), { links: { links: drained } }, isFirst), ['Fail f fail 1.1.1.1', ...paths]);
  check('at a failed router', offered(networkOf(LINK), { routers: { routers: [router('2.2.2.2')] } }, isFirst), paths);
  const first = (found) => Array.isArray(found) ? found[0] : false;
  check('at a link', offered(networkOf(LINK), {}, first), ['Cut c cut 1.1.1.1 2.2.2.2', 'Set cost 1.1.1.1 to 2.2.2.2 s', 'Set cost 2.2.2.2 to 1.1.1.1 ']);
  check('at one of parallel links', offered(networkOf([...LINK, ...PARALLEL]), {}, first)[0], 'Cut c cut 1.1.1.1 2.2.2.2 10.0.0.1');
  check('at a link that is gone', offered(networkOf(LINK), { links: { links: [] } }, first), []);
  const withLan = { ...networkOf([toLan]), networks: { networks: [lan] } };
  check('at a LAN, and at a link to it', [offered(withLan, {}, (found) => !Array.isArray(found) && found.startsWith('net')), offered(withLan, {}, first)], [['Fail the LAN f fail-net 0.0.0.0 10.8.0.2', 'Cut 1.1.1.1 from the LAN  cut 1.1.1.1 10.8.0.0/24'], ['Cut c cut 1.1.1.1 10.8.0.0/24', 'Set cost 1.1.1.1 to 10.8.0.0/24 s']]);
}

// A LAN whose Designated Router failed is the same one, at the address of the next.
function checkSuccessors() {
  const ids = ['1.1.1.1', '2.2.2.2', '3.3.3.3'], lan = (address, members) => ({ area: '0.0.0.0', prefix: '10.8.0.0/24', address, members });
  const toLan = (id, to) => ({ router: id, area: '0.0.0.0', number: 1, type: 'transit', cost: 5, to, data: `10.8.0.${id[0]}` });
  const before = { routers: { routers: ids.map(router) }, links: { links: ids.map((id) => toLan(id, '10.8.0.3')) }, networks: { networks: [lan('10.8.0.3', ids)] } };
  const [left, next] = [ids.slice(0, 2), '10.8.0.2'];
  const seen = (now) => {
    const { nodes, edges } = topology(before, now);
    return [[...nodes.values()].filter(({ kind }) => kind === 'network').map(({ id, address, failed }) => [id, address, failed]), [...edges.values()].map(edgeFailed)];
  };
  const now = { routers: { routers: left.map(router) }, links: { links: left.map((id) => toLan(id, next)) }, networks: { networks: [lan(next, left)] } };
  check('a LAN that goes on', seen(now), [[['net 0.0.0.0 10.8.0.3', '10.8.0.2', false]], [false, false, true]]);
  check('a LAN that goes', seen({ ...now, links: { links: [] }, networks: { networks: [] } }), [[['net 0.0.0.0 10.8.0.3', '10.8.0.3', true]], [true, true, true]]);
  const apart = { ...before.networks.networks[0], prefix: '10.9.0.0/24', address: next };
  check('another LAN', seen({ ...now, networks: { networks: [apart] } })[0].map(([id, , failed]) => [id, failed]), [['net 0.0.0.0 10.8.0.3', true], ['net 0.0.0.0 10.8.0.2', false]]);
}

// What fails within an area: its links, its LANs, and its routers, of which border routers are in several.
function checkAreas() {
  const [first, second] = ['0.0.0.0', '0.0.0.7'], between = (one, other, area, net) => [{ ...end(one, other, `${net}.1`, `${net}.2`), area }, { ...end(other, one, `${net}.2`, `${net}.1`), area }];
  const routers = [['1.1.1.1', [first]], ['2.2.2.2', [first, second]], ['3.3.3.3', [second]]].map(([id, areas]) => ({ ...router(id), areas }));
  const links = [...between('1.1.1.1', '2.2.2.2', first, '10.0.0'), ...between('2.2.2.2', '3.3.3.3', second, '10.7.0')];
  const networks = [{ area: second, prefix: '10.8.0.0/24', address: '10.8.0.3', members: ['2.2.2.2', '3.3.3.3'] }];
  state.graph = topology({ routers: { routers }, links: { links }, networks: { networks } }, {});
  const within = (kind, area) => sweepLines(kind, area).map(([line]) => line).join(', ');
  check('links within an area', [within('links', first), within('links', second), within('links', '0.0.0.9')], ['cut 1.1.1.1 2.2.2.2', 'cut 2.2.2.2 3.3.3.3', '']);
  check('all within an area', [within('all', first), within('all', second)], ['cut 1.1.1.1 2.2.2.2, fail 1.1.1.1, fail 2.2.2.2', 'cut 2.2.2.2 3.3.3.3, fail-net 0.0.0.7 10.8.0.3, fail 2.2.2.2, fail 3.3.3.3']);
  check('the areas', areasNow(), [first, second]);
  state.sweepArea = second;
  const rows = [{ key: '1.1.1.1', lost: 9, gone: 0, dearer: 0 }, { key: '3.3.3.3', lost: 1, gone: 0, dearer: 0 }, { key: '2.2.2.2', lost: 4, gone: 0, dearer: 0 }];
  check('rows of an area, the worst first', sweptRows({ rows }).map(({ key }) => key), ['2.2.2.2', '3.3.3.3']);
  state.sweepArea = null;
}

// Paths that lines name, by docs/STUDY.md, and how the one of its example is written.
function checkPaths() {
  const named = (line) => Object.values(pathNamed(line) ?? {}).join(' ');
  check('paths that are named', ['path r1 10.1.5.1', '  @2 path r1 10.1.5.1 # why', 'expect path r1 10.1.5.1 avoids r2', 'expect not path r1 10.1.5.1 delivered'].map(named), Array(4).fill('r1 10.1.5.1'));
  check('of a route', ['expect route r1 10.1.5.0/24 via r2', 'expect not no-route r1 10.1.5.0/24', 'expect hops r1 10.1.5.7/32 >= 2'].map(named), ['r1 10.1.5.1', 'r1 10.1.5.1', 'r1 10.1.5.7']);
  check('none', ['', '# path r1 10.1.5.1', 'routes r1 10.1.5.1', 'expect lost none', 'expect path r1', 'fail-router path'].map(named), Array(6).fill(''));
  const route = (cost) => ({ prefix: '0.0.0.0/0', kind: 'intra', cost }), step = (router, to, cost) => ({ router, to, route: route(cost) });
  const several = { router: 'r4', ends: ['external'], steps: [step('r4', 'r2', 20), step('r4', 'r3', 20), step('r2', 'r1', 10), step('r3', 'r1', 10), { router: 'r1', end: 'external', route: route(0) }] };
  const written = (path) => pathText(path, (router) => router.toUpperCase());
  check('several ways', written(several), 'R4 → R2 → R1 or R4 → R3 → R1, external (20)');
  check('delivered', written({ router: 'r1', ends: ['delivered'], steps: [step('r1', 'r2', 7), { router: 'r2', end: 'delivered', route: route(3) }] }), 'R1 → R2 (7)');
  check('no match', written({ router: 'r1', ends: ['blackhole'], steps: [{ router: 'r1', end: 'blackhole' }] }), 'R1, blackhole');
  const fan = ['r2', 'r3', 'r4', 'r5'].flatMap((way) => [step('r1', way, 9), step(way, 'r6', 4)]);
  check('more ways than are listed', written({ router: 'r1', ends: ['delivered'], steps: fan }), 'R1 → R2 → R6 or R1 → R3 → R6 or R1 → R4 → R6 or other ways (9)');
  check('two ends', written({ router: 'r1', ends: ['delivered', 'loop'], steps: [step('r1', 'r2', 7), step('r2', 'r1', 7)] }), 'R1 → R2 → R1, delivered, loop (7)');
}

// The routes that packets to an address may take: by the longest prefix that covers it.
function checkMatches() {
  check('covered', [['10.0.0.0/8', '10.255.0.1'], ['10.0.0.0/8', '11.0.0.0'], ['0.0.0.0/0', '255.255.255.255'], ['10.1.1.4/30', '10.1.1.7'], ['10.1.1.4/30', '10.1.1.8'], ['192.0.2.1/32', '192.0.2.1'], ['192.0.2.1/32', '192.0.2.2']].map((pair) => covers(...pair)), [true, false, true, true, false, true, false]);
  const routes = ['0.0.0.0/0', '10.0.0.0/8', '10.1.0.0/16', '10.1.5.0/24', '10.2.0.0/16'].map((prefix) => ({ prefix }));
  check('the longest match', matchesOf(routes, '10.1.5.9').map(({ prefix }) => prefix), ['10.1.5.0/24', '10.1.0.0/16', '10.0.0.0/8', '0.0.0.0/0']);
}

// What differs in color differs in dashes or width too, and rims of areas in dashes; signs of the matrix differ.
function checkStrokes() {
  const alike = (strokes) => {
    const forms = Object.values(strokes).map(({ width, dash }) => JSON.stringify([width, dash]));
    return forms.length - new Set(forms).size;
  };
  check('strokes of one form', [LINK_STROKES, HEAT_STROKES, RING_STROKES, PATH_STROKES].map(alike), [0, 0, 0, 0]);
  check('rims of one form', [AREA_DASHES.length, new Set(AREA_DASHES.map((dash) => JSON.stringify(dash))).size], [9, 9]);
  check('changed links are not drawn as plain ones', Object.entries(LINK_STROKES).filter(([kind, { dash }]) => kind !== 'plain' && !dash.length).length, 0);
  check('signs', new Set(['lost', 'moved', 'cheaper', 'dearer'].map((kind) => JSON.stringify(signOf(kind)))).size, 4);
}

// What people see who lack a kind of cones, by the matrices of Machado, Oliveira and Fernandes (2009), of linear colors.
const CONES = {
  protanopia: [[0.152286, 1.052583, -0.204868], [0.114503, 0.786281, 0.099216], [-0.003882, -0.048116, 1.051998]],
  deuteranopia: [[0.367322, 0.860646, -0.227968], [0.280085, 0.672501, 0.047413], [-0.01182, 0.04294, 0.968881]],
};

const linearOf = (color) => color.slice(1).match(/../g).map((pair) => parseInt(pair, 16) / 255).map((part) => part <= 0.04045 ? part / 12.92 : ((part + 0.055) / 1.055) ** 2.4);

// A color in CIELAB, of its linear parts.
function labOf(rgb) {
  const sum = (row) => row.reduce((total, factor, k) => total + factor * Math.min(1, Math.max(0, rgb[k])), 0), root = (part) => part > 0.008856 ? Math.cbrt(part) : 7.787 * part + 16 / 116;
  const [x, y, z] = [[0.4124 / 0.9505, 0.3576 / 0.9505, 0.1805 / 0.9505], [0.2126, 0.7152, 0.0722], [0.0193 / 1.089, 0.1192 / 1.089, 0.9505 / 1.089]].map(sum).map(root);
  return [116 * y - 16, 500 * (x - y), 200 * (y - z)];
}

// Colors of meaning that are hard to distinguish for some people.
function checkVision(tokens) {
  const fills = ['lost-fill', 'dearer-fill', 'moved-fill', 'none-fill'], near = [];
  for (const [theme, colors] of Object.entries(tokens)) {
    for (const [sight, matrix] of Object.entries(CONES)) {
      const seen = (fill) => labOf(matrix.map((row) => row.reduce((total, factor, k) => total + factor * linearOf(colors[fill])[k], 0)));
      fills.forEach((one, k) => fills.slice(k + 1).forEach((other) => {
        const distance = Math.hypot(...seen(one).map((part, at) => part - seen(other)[at]));
        if (distance < 20) near.push(`${theme} ${sight} ${one} ${other} ${distance.toFixed(0)}`);
      }));
    }
  }
  check('colors that some people cannot distinguish', near, []);
}

// The colors of texts on what they stand on, in both themes: 4.5 to 1, as WCAG 2.1 has it for texts.
const STANDS = {
  'bg panel raised sunk map': 'text dim faint lost dearer moved better', 'panel raised': 'accent ok bad refused verb expect name number', map: 'cost down now dearer',
  'accent-bg': 'accent text dim', 'ok-bg': 'ok', 'bad-bg': 'bad accent text verb expect name number faint', 'refused-bg': 'refused accent text verb expect name number faint', accent: 'on-accent',
};

function luminance(color) {
  const digits = color.length === 4 ? [...color.slice(1)].map((digit) => digit + digit) : color.slice(1).match(/../g);
  const [red, green, blue] = digits.map((pair) => parseInt(pair, 16) / 255).map((part) => part <= 0.03928 ? part / 12.92 : ((part + 0.055) / 1.055) ** 2.4);
  return 0.2126 * red + 0.7152 * green + 0.0722 * blue;
}

function checkContrast() {
  const style = read('style.css'), tokens = (block) => Object.fromEntries([...block.matchAll(/--([a-z0-9-]+): (#[0-9a-f]{3,6});/g)].map(([, name, value]) => [name, value]));
  const [light, dark] = [/:root \{([^}]*)\}/, /:root\[data-theme=dark\] \{([^}]*)\}/].map((pattern) => tokens(pattern.exec(style)[1]));
  const faint = [['light', light], ['dark', { ...light, ...dark }]].flatMap(([theme, colors]) => Object.entries(STANDS).flatMap(([grounds, texts]) => grounds.split(' ').flatMap((ground) => texts.split(' ').flatMap((text) => {
    const [one, other] = [luminance(colors[ground]), luminance(colors[text])].sort((a, b) => b - a), ratio = (one + 0.05) / (other + 0.05);
    return ratio < 4.5 ? [`${theme} ${text} on ${ground} ${ratio.toFixed(2)}`] : [];
  }))));
  check('colors that are too faint', faint, []);
  checkVision({ light, dark: { ...light, ...dark } });
}

checkGrammar(JSON.parse(fs.readFileSync(process.argv[2], 'utf8').split('\n')[0]).words);
checkLines();
checkEdits();
checkRows();
checkTyping();
checkReplies();
checkShown();
checkAuditKinds();
checkKinds();
checkLinks();
checkFailures();
checkOffers();
checkSuccessors();
checkAreas();
checkPaths();
checkStrokes();
checkMatches();
checkContrast();
console.log(`the parts: ${passed} passed, ${failed} failed`);
process.exit(failed || !passed ? 1 : 0);
