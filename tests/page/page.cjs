// Opens the page in Chromium, and does what a person does: node page.cjs PAGE STUDY PLAN FOLDER [PART..]
//
// STUDY is ospf-study, whose answers are those that the page must show, and PLAN ospf-plan, which saves a session. Pictures of
// the page go to FOLDER. A PART is the name of a function below; without one all are done. The last line is `N passed, M failed`.
'use strict';
const { execFileSync, spawnSync } = require('node:child_process');
const fs = require('node:fs');
const path = require('node:path');
const { begin, open } = require('./browser.cjs');

const [page, program, plan, folder] = process.argv.slice(2, 6).map((word) => path.resolve(word));
const chosen = process.argv.slice(6);
const examples = path.join(__dirname, '..', '..', 'examples');
const [dump, hosts, study] = ['two-areas.oswp', 'hosts', 'maintenance.study'].map((name) => path.join(examples, name));
let passed = 0, failed = 0;

function check(name, holds, about = '') {
  if (holds) passed++;
  else {
    failed++;
    console.log(`${name}: not so ${about}`);
  }
}

// What ospf-study answers to lines, as documents.
function answers(lines, ...words) {
  return strictAnswers(lines, '--keep-going', ...words);
}

function strictAnswers(lines, ...words) {
  const ended = spawnSync(program, ['--dump', dump, '--names', hosts, '--format', 'json', ...words], { input: lines.join('\n'), encoding: 'utf8' });
  return ended.stdout.trim().split('\n').map((line) => JSON.parse(line));
}

const textOf = (tab, selector) => tab.evaluate(`document.querySelector(${JSON.stringify(selector)}).textContent`);
const valueOf = (tab, id) => tab.evaluate(`document.getElementById(${JSON.stringify(id)}).value`);
const countsOf = (tab) => tab.evaluate('Object.fromEntries([...document.querySelectorAll("[data-count]")].filter((one) => one.dataset.count !== "better").map((one) => [one.dataset.count, Number(one.querySelector("b").textContent)]))');
const rowsOf = (tab) => tab.evaluate('[...document.querySelectorAll("#pane tbody tr")].map((row) => [...row.cells].map((cell) => cell.textContent))');

// A text with the names of examples/hosts in the place of Router IDs.
const short = (found) => found.replace(/\b([1-9])\.\1\.\1\.\1\b(?!\/)/g, 'r$1');

// The same as a person reads it off the page, from a document of `changes`.
function changeRows({ changes }) {
  const cost = (route) => !route ? 'none' : route.kind === 'own' ? `own ${route.metric}` : route.kind === 'ext2' ? `${route.metric} + ${route.cost}` : String(route.cost);
  return changes.map(({ change, router, prefix, was, now }) => [change, `r${router[0]}`, prefix ?? '', cost(was), cost(now)]);
}

async function compareChanges(tab, name, lines, ...words) {
  const [changes, loops] = answers([...lines, 'changes', 'loops'], ...words).slice(lines.length);
  const counts = await countsOf(tab);
  const wanted = { lost: changes.counts.lost, gone: changes.counts.gone, dearer: changes.counts.dearer, moved: changes.counts.moved + changes.counts.type, loops: loops.loops.length, blackholes: loops.blackholes.length };
  check(`${name}: counts`, JSON.stringify(counts) === JSON.stringify(wanted), JSON.stringify([counts, wanted]));
  await tab.click('#tab-Changes');
  if (changes.changes.length) await tab.click('[data-group="flat"]');
  const rows = (await rowsOf(tab)).map(([change, ...rest]) => [change.split(' ')[1], ...rest.slice(0, 4)]);
  check(`${name}: rows`, JSON.stringify(rows) === JSON.stringify(changeRows(changes)), JSON.stringify(rows));
}

// The place of the middle of an edge on the screen.
const middleOf = (tab, key) => tab.evaluate(`(() => {
  const { left, top } = picture.canvas.getBoundingClientRect();
  const [[x, y], [u, v]] = picture.endsOf(picture.edges.get(${JSON.stringify(key)}));
  return [left + (x + u) / 2, top + (y + v) / 2];
})()`);

async function openFiles(tab) {
  check('nothing is open', !(await tab.evaluate('document.getElementById("empty").hidden')));
  await tab.picture(path.join(folder, 'empty.png'));
  await tab.pick(dump, hosts);
  await tab.settle();
  check('the dump is open', (await textOf(tab, '#about')).startsWith('two-areas.oswp: 5 routers, 3 links, 1 LAN, 2 areas, 22 LSAs'), await textOf(tab, '#about'));
  check('its names', JSON.stringify(await tab.evaluate('[...state.graph.nodes.values()].map((node) => node.label)')) === JSON.stringify(['r1', 'r2', 'r3', 'r4', 'r5', '10.1.0.0/24']));
}

// What the audit of the region finds: by kind, with each place, and what it does not find.
async function auditRegion(browser) {
  const tab = await open(browser, `file://${page}`), samples = path.join(__dirname, '..', '..', 'web', 'samples');
  await tab.settle();
  await tab.pick(...['region.oswp', 'region.hosts'].map((name) => path.join(samples, name)));
  await tab.settle();
  await tab.click('#tab-Audit');
  await tab.until('state.audit && document.querySelector("#pane tbody tr")');
  const ended = spawnSync(program, ['--dump', path.join(samples, 'region.oswp'), '--names', path.join(samples, 'region.hosts'), '--format', 'json'], { input: 'audit\naudit unequal-cost\n', encoding: 'utf8' });
  const [{ findings }, { places }] = ended.stdout.split('\n').slice(0, 2).map((line) => JSON.parse(line));
  const rows = (await rowsOf(tab)).map(([kind, name, count]) => [kind, name, count].join(' ')).sort().join(', ');
  check('what an audit finds', findings.length === 3 && rows === findings.map((one) => `${one.class} ${one.kind} ${one.count}`).sort().join(', '), rows);
  const clean = (await textOf(tab, '#pane .quiet')).replace('Not found: ', '').split(', ');
  check('what it does not find', clean.length === 22 && clean.includes('nssa') && findings.every(({ kind }) => !clean.includes(kind)), clean.join());
  await tab.evaluate('[...document.querySelectorAll("#pane button")].find((one) => one.ariaLabel?.startsWith("unequal-cost")).click()');
  await tab.until('document.querySelector("#places tbody tr")');
  const listed = await tab.evaluate('[...document.querySelectorAll("#places tbody tr")].map((one) => one.textContent)'), names = new Map(fs.readFileSync(path.join(samples, 'region.hosts'), 'utf8').trim().split('\n').map((line) => line.split(' ')));
  const wanted = places.map((place) => place.replace(/10\.254\.0\.\d+/g, (id) => names.get(id)));
  check('each place', places.length === 14 && JSON.stringify(listed) === JSON.stringify(wanted), listed.join('; '));
  await tab.picture(path.join(folder, 'audit.png'));
}

// The networks that come with the page: their small pictures are drawn, and the study of each has the outcome of ospf-study.
async function trySamples(browser) {
  const tab = await open(browser, `file://${page}`), root = path.join(__dirname, '..', '..');
  await tab.settle();
  const networks = [['examples', 'two-areas', 'hosts', 'maintenance'], ...['campus', 'region', 'carrier'].map((name) => ['web/samples', name, `${name}.hosts`, name])];
  await tab.until('document.querySelectorAll("#samples canvas").length === 4 && [...document.querySelectorAll("#samples canvas")].every((one) => one.getContext("2d").getImageData(0, 0, one.width, one.height).data.some((byte) => byte))');
  check('four networks to try', (await tab.evaluate('[...document.querySelectorAll("#samples b")].map((one) => one.textContent).join()')) === 'Two areas,Campus,Region,Carrier');
  await tab.picture(path.join(folder, 'samples.png'));
  const capture = fs.readFileSync(path.join(root, 'docs', 'CAPTURE.md'), 'utf8').replaceAll(/ROUTER\.(?=txt|walk)|LINK\./g, (word) => word.toLowerCase());
  for (const way of ['SNMP', 'Capture', 'FRR']) {
    await tab.click(`[data-recipe=${way}]`);
    const made = (await textOf(tab, '#recipe pre')).split('\n').filter((line) => !/^(#|for|ospf-capture)/.test(line));
    check(`a dump by ${way}`, made.length === 1 && capture.includes(made[0].replace(/^do /, '')), made.join());
  }
  await tab.click('#recipe .button');
  await tab.evaluate('document.getElementById("find").focus()');
  await tab.command('paste');
  check('its lines are copied', (await valueOf(tab, 'find')).includes('vtysh -c'), await valueOf(tab, 'find'));
  await tab.evaluate('document.getElementById("find").value = ""');
  for (const [k, [room, name, names, lines]] of networks.entries()) {
    const given = ['--dump', path.join(root, room, `${name}.oswp`), '--names', path.join(root, room, names), '--format', 'json', path.join(root, room, `${lines}.study`)];
    const { summary } = JSON.parse(spawnSync(program, given, { encoding: 'utf8' }).stdout.trim().split('\n').at(-1));
    await tab.evaluate(`document.querySelectorAll('#samples button')[${k}].click()`);
    await tab.settle(120);
    const wanted = `Study holds: ${summary.expectations} of ${summary.expectations} expectations hold`;
    check(`the study of ${name}`, summary.result === 'ok' && summary.expectations > 4 && (await tab.evaluate('outcomeText()')) === wanted, await tab.evaluate('outcomeText()'));
    await tab.picture(path.join(folder, `sample-${name}.png`));
  }
}

async function cutByMouse(_browser, tab) {
  const key = await tab.evaluate('[...state.graph.edges.values()].find((edge) => edge.a === "1.1.1.1" && edge.b === "2.2.2.2").key');
  await tab.clickAt(...await middleOf(tab, key));
  check('a link is selected by a click', (await textOf(tab, '#card h2')) === 'r1 – r2', await textOf(tab, '#card h2'));
  await tab.click('#card [data-key="c"]');
  await tab.settle();
  check('a cut is a line', (await valueOf(tab, 'text')) === 'cut r1 r2\n', await valueOf(tab, 'text'));
  await compareChanges(tab, 'a cut', ['cut r1 r2']);
  check('a cut is drawn', await tab.evaluate(`edgeFailed(state.graph.edges.get(${JSON.stringify(key)}))`));
  await tab.picture(path.join(folder, 'cut.png'));
}

async function useKeys(_browser, tab) {
  await tab.evaluate('document.activeElement.blur()');
  await tab.evaluate('select("4.4.4.4")');
  await tab.key('f');
  await tab.settle();
  check('a router fails by a key', (await valueOf(tab, 'text')) === 'cut r1 r2\nfail r4\n', await valueOf(tab, 'text'));
  await compareChanges(tab, 'two failures', ['cut r1 r2', 'fail r4']);
  await tab.key('[');
  await tab.settle();
  await compareChanges(tab, 'an earlier line', ['cut r1 r2']);
  await tab.key(']');
  await tab.settle();
  await tab.evaluate('select("5.5.5.5")');
  await tab.key('d');
  await tab.settle();
  check('a drain is a line', (await valueOf(tab, 'text')).endsWith('fail r4\ndrain r5\n'), await valueOf(tab, 'text'));
}

async function setText(tab, lines) {
  await tab.evaluate(`{ const text = document.getElementById('text'); text.value = ${JSON.stringify(lines.join('\n'))}; state.chosen = null; text.dispatchEvent(new Event('input')); }`);
  await tab.settle();
}

async function editStudy(_browser, tab) {
  const lines = ['fail-link 0.0.0.0 r1 r2', 'expect lost none', 'nonsense', 'cost 0.0.0.9 r1 1 1', 'expect gone none'];
  await setText(tab, lines);
  const wanted = answers(lines);
  check('a failed expectation is shown', (await textOf(tab, '#drawn .failed .answer')).includes(short(wanted[1].found)), await textOf(tab, '#drawn .failed .answer'));
  check('a fault is shown', (await textOf(tab, '#drawn .fault .answer')).includes(`S2 UnknownWord nonsense (${wanted[2].hint})`));
  check('a refusal is shown', (await textOf(tab, '#drawn .refused .answer')).includes('E1 NoArea 0.0.0.9'));
  await tab.evaluate('[...document.querySelectorAll("#drawn button")].find((one) => one.textContent === "Expect what was found").click()');
  await tab.settle();
  check('what was found is expected', (await valueOf(tab, 'text')).split('\n')[1] === `expect lost <= ${/\d+/.exec(wanted[1].found)[0]}`, await valueOf(tab, 'text'));
  await tab.evaluate('[...document.querySelectorAll("#drawn button")].find((one) => one.textContent.startsWith("Write 0.0.0.")).click()');
  await tab.settle();
  check('a hint is written', (await valueOf(tab, 'text')).split('\n')[3] === `cost ${wanted[3].hint.split(' ').at(-1)} r1 1 1`, await valueOf(tab, 'text'));
  await setText(tab, lines);
  check('the verdict', (await tab.evaluate('outcomeText()')) === 'Study fails: 1 of 2 expectations hold · 2 refused', await tab.evaluate('outcomeText()'));
  check('the marks', (await tab.evaluate('[...document.querySelectorAll("#gutter .mark")].map((mark) => mark.className.split(" ")[1]).join(" ")')) === 'edit failed fault refused ok');
  await tab.picture(path.join(folder, 'faults.png'));
  const maintenance = fs.readFileSync(study, 'utf8').split('\n');
  await setText(tab, maintenance);
  check('the study of the examples holds', (await tab.evaluate('outcomeText()')) === 'Study holds: 14 of 14 expectations hold', await tab.evaluate('outcomeText()'));
  const shown = maintenance.findIndex((line) => line.startsWith('undo'));
  await compareChanges(tab, 'the line before the edits are undone', maintenance.slice(0, shown).filter((line) => line && !line.startsWith('#')));
}

const marksOf = (tab) => tab.evaluate('[...document.querySelectorAll("#gutter .mark")].map((mark) => mark.className.split(" ")[1]).join(" ")');
const suggested = (tab, selector = '.suggestions:not([hidden])') => tab.evaluate(`[...document.querySelectorAll('${selector} li b')].map((word) => word.textContent)`);

// A strict study ends where ospf-study ends: the lines after it are not run, and the network is shown as it was there.
async function endEarly(_browser, tab) {
  const lines = ['fail-link 0.0.0.0 r1 r2', 'expect lost none', 'fail-router r4', '', '# at the end', 'expect gone none'];
  await setText(tab, lines);
  await tab.click('#strict');
  await tab.settle();
  const answered = strictAnswers(lines).filter(({ line }) => line);
  check('a strict study answers what ospf-study answers', JSON.stringify(await tab.evaluate('[...state.answers.study.keys()]')) === JSON.stringify(answered.map(({ line }) => line)));
  check('what is not run is marked', (await marksOf(tab)).trim() === 'edit failed skipped   skipped', await marksOf(tab));
  check('it is said', (await tab.evaluate('outcomeText()')) === 'Study fails: 0 of 1 expectations hold · 2 not run', await tab.evaluate('outcomeText()'));
  await compareChanges(tab, 'the line at which the study ends', lines.slice(0, 1));
  check('that line is shown', (await tab.evaluate('state.shown')) === 2);
  await tab.picture(path.join(folder, 'strict.png'));
  await tab.click('#strict');
  await tab.settle();
  const { answer } = answers(lines).find(({ line }) => line === lines.length);
  check('the others are run again', (await marksOf(tab)).trim() === `edit failed edit   ${answer}`, await marksOf(tab));
}

// The text of the study, as it is typed in, deleted, copied and taken back.
async function typeLines(_browser, tab) {
  const text = () => valueOf(tab, 'text'), caret = () => tab.evaluate('document.getElementById("text").selectionStart');
  await tab.evaluate('editor.set("")');
  await tab.evaluate('editor.reveal(1)');
  await tab.type('refresh');
  await tab.key('Enter', 13);
  await tab.key('Enter', 13);
  await tab.type('# one two');
  check('lines are typed', (await text()) === 'refresh\n\n# one two' && (await caret()) === 18, `${await text()} ${await caret()}`);
  await tab.key('Backspace', 8, 2);
  await tab.key('Backspace', 8);
  check('a word and a character are deleted', (await text()) === 'refresh\n\n# one', await text());
  await tab.key('ArrowUp', 38);
  await tab.key('Backspace', 8);
  check('a line is joined to the one above', (await text()) === 'refresh\n# one' && (await caret()) === 7, `${await text()} ${await caret()}`);
  await tab.key('Delete', 46);
  check('and to the one below', (await text()) === 'refresh# one', await text());
  await tab.key('z', 90, 2);
  await tab.key('z', 90, 2);
  check('both are taken back', (await text()) === 'refresh\n\n# one', await text());
  await tab.key('y', 89, 2);
  check('one of them is done again', (await text()) === 'refresh\n# one', await text());
  await tab.settle();
  await tab.command('selectAll');
  await tab.command('copy');
  await tab.key('ArrowRight', 39);
  await tab.command('paste');
  check('what is copied has no answers', (await text()) === 'refresh\n# onerefresh\n# one', await text());
  await tab.key('Home', 36);
  await tab.key('ArrowUp', 38, 8);
  await tab.type('expect lost none\nrefresh\n');
  check('what is selected is replaced, by several lines', (await text()) === 'refresh\nexpect lost none\nrefresh\n# one', await text());
  await tab.settle();
  check('and answered', (await marksOf(tab)).trim() === 'edit ok edit', await marksOf(tab));
  await tab.evaluate('editor.set(""), editor.reveal(1)');
  await tab.send('Input.imeSetComposition', { text: '# gr', selectionStart: 4, selectionEnd: 4 });
  await tab.send('Input.imeSetComposition', { text: '# gru', selectionStart: 5, selectionEnd: 5 });
  await tab.type('# grün');
  check('what is composed is written', (await text()) === '# grün' && (await caret()) === 6, await text());
  await tab.key('z', 90, 2);
  check('and taken back', (await text()) === '', await text());
}

// What a line answered is at the line: after it or below it, and a click goes to the line that was clicked.
async function answerAtLines(_browser, tab) {
  const lines = ['fail-link 0.0.0.0 r1 r2', 'expect lost none', 'path r1 10.1.5.1', '', 'routers', 'expect path r1 10.1.5.1 avoids r2', 'explain r1 10.1.5.0/24', 'nonsense'];
  await setText(tab, lines);
  const [, lost, { counts }, avoids] = answers([...lines.slice(0, 2), 'changes', lines[5]]);
  const said = await tab.evaluate('[...document.querySelectorAll("#drawn > div")].map((row) => row.querySelector(".said, .answer")?.firstChild.textContent ?? "")');
  const wanted = [wordsOf(counts), `found ${short(lost.found)}`, 'r1 → r3 → r5 (21)', '', '5 routers', short(avoids.found), 'inter 21, via r3: 16.2 inter-area', 'S2 UnknownWord nonsense (did you mean table)'];
  check('each line has its answer', avoids.answer === 'ok' && JSON.stringify(said) === JSON.stringify(wanted), JSON.stringify([said, wanted]));
  const rows = await tab.evaluate('["#gutter .mark", "#drawn > div", "#text > div"].map((rows) => [...document.querySelectorAll(rows)].map((row) => Math.round(row.getBoundingClientRect().top)).join())');
  check('marks, answers and lines are beside each other', rows[0] === rows[1] && rows[1] === rows[2], rows.join(' and '));
  check('an answer has room of its own', await tab.evaluate('(() => { const [, second, third] = document.querySelectorAll("#text > div"), answer = document.querySelector("#drawn .failed .answer").getBoundingClientRect(); return answer.height > 10 && answer.top >= second.getBoundingClientRect().top + 20 && answer.bottom <= third.getBoundingClientRect().top + 1; })()'));
  const { left, top } = await tab.evaluate('(({ left, top }) => ({ left, top }))(document.querySelectorAll("#text > div")[5].getBoundingClientRect())');
  await tab.clickAt(left + 40, top + 11);
  check('a click goes to its line', (await tab.evaluate('editor.lineOfCaret()')) === 6, await tab.evaluate('editor.lineOfCaret()'));
  await tab.until('document.getElementById("spoken").textContent');
  check('the answer of the line is read out', (await textOf(tab, '#spoken')) === `line 6: ok, ${wanted[5]}`, await textOf(tab, '#spoken'));
  const { differences } = answers(lines.slice(0, 1), '--verbose')[0];
  await tab.click('#drawn [aria-expanded]');
  const listed = await tab.evaluate('[...document.querySelectorAll("#drawn li")].map((one) => one.textContent)');
  check('what an edit changed is listed', listed.length === 2 && listed.length === differences.length && listed.every((one, k) => one === `area 0.0.0.0 router r${k + 1}: ${short(differences[k].what)}`), listed.join('; '));
  await tab.picture(path.join(folder, 'answers.png'));
  await tab.click('#drawn [aria-expanded]');
  check('and closed', (await tab.evaluate('document.querySelectorAll("#drawn li").length')) === 0);
}

// Of lines that look as they did, what is drawn stays, and its buttons are about the line where it now is.
async function keepRows(_browser, tab) {
  await setText(tab, ['refresh', 'expect not same', 'expect lost none', 'nonsense']);
  await tab.evaluate('[...document.querySelectorAll("#drawn > div")].forEach((row, k) => { row.dataset.was = k; })');
  await tab.evaluate('editor.reveal(1)');
  await tab.type('# above\n');
  await tab.settle();
  const was = await tab.evaluate('[...document.querySelectorAll("#drawn > div")].map((row) => row.dataset.was ?? "new").join()');
  check('rows stay', was.startsWith('new,') && was.split(',').filter((one) => one === 'new').length <= 3 && was.endsWith('3'), was);
  check('and have their numbers', (await tab.evaluate('[...document.querySelectorAll("#gutter .mark")].map((mark) => `${mark.textContent.at(-1)}${mark.ariaLabel.split(":")[0]}`).join()')) === '1line 1,2line 2,3line 3,4line 4,5line 5');
  await tab.evaluate('[...document.querySelectorAll("#drawn .failed button")].find((one) => one.textContent === "Remove").click()');
  await tab.settle();
  check('a button of a row that moved', (await valueOf(tab, 'text')) === '# above\nrefresh\nexpect lost none\nnonsense', await valueOf(tab, 'text'));
  const tops = await tab.evaluate('["#gutter .mark", "#drawn > div", "#text > div"].map((rows) => [...document.querySelectorAll(rows)].map((row) => Math.round(row.getBoundingClientRect().top)).join())');
  await tab.evaluate('editor.reveal(4)');
  await tab.until('document.querySelector("#drawn .fault button").tabIndex === 0');
  await tab.key('Tab', 9);
  check('the Tab key goes to what can be done about the line', (await tab.evaluate('[document.activeElement.textContent, document.activeElement.closest("#drawn > div").className.split(" ")[0]].join()')) === 'Show,fault' && (await tab.evaluate('[...document.querySelectorAll("#drawn button")].filter((one) => one.tabIndex === 0).length')) === 3, await tab.evaluate('document.activeElement.outerHTML'));
  check('rows are beside their lines', tops[0] === tops[1] && tops[1] === tops[2], tops.join(' and '));
}

// The shown line stays with its text while lines come above it, which keep their answers.
async function typeAbove(_browser, tab) {
  await setText(tab, ['expect loops none', 'fail-link 0.0.0.0 r1 r2', 'fail-router r4']);
  await tab.evaluate('showAfter(2)');
  await tab.settle();
  await tab.evaluate('editor.reveal(1)');
  await tab.type('# above\n');
  check('lines keep their answers', (await marksOf(tab)) === ' ok edit edit', await marksOf(tab));
  await tab.settle();
  check('the shown line moves along', (await tab.evaluate('state.shown')) === 3);
  await compareChanges(tab, 'the shown line', ['fail-link 0.0.0.0 r1 r2']);
  await tab.evaluate('editor.reveal(4)');
  await tab.key('ArrowUp', 38, 1);
  await tab.settle();
  check('a line moves', (await valueOf(tab, 'text')) === '# above\nexpect loops none\nfail-router r4\nfail-link 0.0.0.0 r1 r2', await valueOf(tab, 'text'));
  await tab.key('/', 191, 2);
  await tab.settle();
  check('a line is made a comment', (await valueOf(tab, 'text')).includes('\n# fail-router r4\n'), await valueOf(tab, 'text'));
  await tab.evaluate('document.getElementById("picture").focus()');
  await tab.key('z', 90, 2);
  await tab.settle();
  check('it is taken back from the picture', !(await valueOf(tab, 'text')).includes('# fail-router'), await valueOf(tab, 'text'));
}

// Words are suggested by the words of help, and by what the network has.
async function complete(_browser, tab) {
  await setText(tab, ['']);
  await tab.evaluate('editor.reveal(1)');
  await tab.type('fail-l');
  check('a command is suggested', JSON.stringify(await suggested(tab)) === '["fail-link"]', JSON.stringify(await suggested(tab)));
  await tab.key('Tab', 9);
  await tab.key('Tab', 9);
  await tab.type('r1 ');
  check('neighbors are suggested', JSON.stringify(await suggested(tab)) === '["r2","r3"]', JSON.stringify(await suggested(tab)));
  await tab.picture(path.join(folder, 'suggestions.png'));
  await tab.key('ArrowDown', 40);
  await tab.key('ArrowDown', 40);
  check('the chosen one is announced', await tab.evaluate('document.getElementById(document.activeElement.getAttribute("aria-activedescendant")).textContent.startsWith("r3")'));
  await tab.key('Enter', 13);
  check('what is chosen is written', (await valueOf(tab, 'text')) === 'fail-link 0.0.0.0 r1 r3 ', await valueOf(tab, 'text'));
  await tab.type('\nexpect lost ');
  check('conditions are suggested', JSON.stringify(await suggested(tab)) === '["none","<=","only"]', JSON.stringify(await suggested(tab)));
  await tab.key('Escape', 27);
  check('the list closes', (await suggested(tab)).length === 0 && (await tab.evaluate('document.activeElement.id')) === 'text');
  await tab.key('Escape', 27);
  check('a text is left by Escape', (await tab.evaluate('document.activeElement.id')) === 'picture');
}

// What is typed above the picture is found, or done; what it would change is said beforehand.
async function findAndDo(_browser, tab) {
  await setText(tab, ['']);
  await tab.key('/', 191);
  await tab.type('r4');
  await tab.key('Enter', 13);
  check('a router is found', (await textOf(tab, '#card h2')) === 'r4', await textOf(tab, '#card h2'));
  await tab.key('l', 76);
  check('its links are walked', (await textOf(tab, '#card h2')) === 'r2 – r4', await textOf(tab, '#card h2'));
  await tab.key('/', 191);
  await tab.type('cut r1 r2');
  await tab.until('/dearer/.test(document.querySelector(".suggestions:not([hidden]) li span").textContent)');
  const { counts } = answers(['cut r1 r2', 'changes'])[1], said = await textOf(tab, '.suggestions:not([hidden]) li span');
  check('what a line would change', said === wordsOf(counts), said);
  await tab.key('Enter', 13);
  await tab.settle();
  check('it is done', (await valueOf(tab, 'text')) === 'cut r1 r2\n', await valueOf(tab, 'text'));
}

// Dropped files: names and a study for what is open, a baseline to the right, several databases, and what is none.
async function dropFiles(_browser, tab) {
  const other = path.join(folder, 'plan.study'), before = path.join(folder, 'before.oswp');
  fs.writeFileSync(other, 'fail-router r5\n');
  await tab.drop(300, other);
  await tab.settle();
  check('a study is dropped', (await valueOf(tab, 'text')) === 'fail-router r5\n' && (await valueOf(tab, 'study-name')) === 'plan.study');
  spawnSync(program, ['--dump', dump, '--names', hosts, '--out', before], { input: 'cost 0.0.0.0 r1 r2 40\n' });
  await tab.drop(1000, before);
  await tab.settle();
  check('a baseline is dropped', (await textOf(tab, '#about')).endsWith('compared with before.oswp'), await textOf(tab, '#about'));
  await compareChanges(tab, 'against a baseline', ['fail-router r5'], '--baseline', before);
  await tab.evaluate('compareWith(null)');
  await tab.settle();
  await compareChanges(tab, 'against the loaded database', ['fail-router r5']);
  await tab.drop(300, before);
  await tab.settle();
  check('another database is shown', (await textOf(tab, '#about')).startsWith('before.oswp'), await textOf(tab, '#about'));
  await tab.click('#open');
  const listed = await tab.evaluate('[...document.querySelectorAll("#networks [data-network]")].map((one) => one.dataset.network)');
  check('the others are listed', JSON.stringify(listed) === '["two-areas.oswp"]', JSON.stringify(listed));
  await tab.click('#networks [data-network]');
  await tab.settle();
  check('the first is shown again', (await textOf(tab, '#about')).startsWith('two-areas.oswp') && (await valueOf(tab, 'text')) === 'fail-router r5\n', await textOf(tab, '#about'));
}

// Captures and prints: a dump is made of them where the module can, and it is said how to make one where it cannot.
async function openCaptures(browser, tab) {
  const print = path.join(folder, 'r1.txt'), list = path.join(folder, 'r2.list');
  fs.writeFileSync(print, Buffer.concat([Buffer.from('       OSPF Router with ID (1.1.1.1)\n'), fs.readFileSync(dump)]));
  fs.writeFileSync(list, 'Router Link States (Area 0.0.0.0)\nLink ID  ADV Router  Age Seq# CkSum\n');
  if (!(await tab.evaluate('calculator.opened')).readsCaptures) {
    await tab.drop(300, print);
    await tab.settle();
    check('no dump is made of a print', (await textOf(tab, '#status')).endsWith('ospf-capture --out net.oswp r1.txt'), await textOf(tab, '#status'));
  }
  const stub = fs.readFileSync(path.join(__dirname, 'capture_stub.js'), 'utf8'), stubbed = path.join(folder, 'stubbed.html');
  fs.writeFileSync(stubbed, fs.readFileSync(page, 'utf8').replace(/"worker": "/, () => `"worker": ${JSON.stringify(`${stub}\nstubCaptures();\n`).replaceAll('<', '\\u003c').slice(0, -1)}`));
  const other = await open(browser, `file://${stubbed}`);
  await other.settle();
  await other.drop(300, print, list, hosts);
  await other.settle();
  check('a dump is made of a print', (await textOf(other, '#about')).startsWith('r1.txt: 5 routers'), `${await textOf(other, '#about')} ${await textOf(other, '#fault')}`);
  const files = (await rowsOf(other)).map((cells) => cells.slice(0, 2).join(' '));
  check('what was found in it', files.length === 3 && files[0] === 'warning r2.list: Missing area 0.0.0.0 type 1 id 3.3.3.3 adv 3.3.3.3' && files[1] === 'notice database: Opaque 2', files.join('; '));
  const refused = path.join(folder, 'refused.txt');
  fs.writeFileSync(refused, 'REFUSED\n');
  await other.drop(300, refused);
  await other.settle();
  check('a refused file', (await textOf(other, '#status')) === 'refused.txt: UnknownKind at 0', await textOf(other, '#status'));
}

async function showPaths(_browser, tab) {
  await tab.click('#tab-Path');
  await tab.evaluate('{ const form = document.querySelector("#pane form"); form.elements.from.value = "r1"; form.elements.to.value = "10.1.5.1"; form.requestSubmit(); }');
  await tab.settle();
  const [before, ...others] = answers(['path r1 10.1.5.1', 'cost 0.0.0.1 r3 10.1.0.3 65535', 'refresh', 'drop-link 0.0.0.1 r3 10.1.0.3', 'refresh', 'path r1 10.1.5.1']);
  const now = others[4];
  const cells = (document_) => document_.steps.map((step) => [`r${step.router[0]}`, step.to ? `r${step.to[0]}` : step.end, String(step.cost ?? '')]);
  const rows = (await rowsOf(tab)).map(([router, next, , cost]) => [router, next, cost]);
  check('paths before and now', JSON.stringify(rows) === JSON.stringify([...cells(before), ...cells(now)]), JSON.stringify(rows));
  check('they are drawn', await tab.evaluate('picture.paths.before.length > 0 && picture.paths.now.length > 0'));
  await tab.picture(path.join(folder, 'path.png'));
}

async function sweepAll(_browser, tab) {
  await setText(tab, ['']);
  await tab.click('#tab-Sweep');
  await tab.click('#sweep');
  await tab.until('state.sweep?.isDone');
  const rows = await tab.evaluate('state.sweep.rows');
  const documents = answers(rows.flatMap(({ line }) => [line, 'changes', 'loops', 'undo 1']));
  const wanted = rows.map(({ line, key }, k) => {
    const { lost, gone, dearer, moved } = documents[4 * k + 1].counts;
    return { line, key, lost, gone, dearer, moved, loops: documents[4 * k + 2].loops.length, lostInAll: lost };
  });
  check('a sweep', rows.length === 9 && JSON.stringify(rows) === JSON.stringify(wanted), JSON.stringify(rows));
  check('it is drawn', await tab.evaluate('picture.mode === "sweep" && picture.heat.size === 9'));
  await tab.picture(path.join(folder, 'sweep.png'));
}

// A sweep within an area fails what is there, and a sweep of all areas shows what is in a chosen one.
async function sweepWithin(_browser, tab) {
  await setText(tab, ['']);
  await tab.click('#tab-Sweep');
  const choose = (area) => tab.evaluate(`{ const within = document.getElementById('within'); within.value = '${area}'; within.dispatchEvent(new Event('change')); }`);
  const swept = async () => {
    await tab.click('#sweep');
    await tab.until('state.sweep?.isDone');
    return (await rowsOf(tab)).map(([line]) => line).sort().join(', ');
  };
  await tab.click('[data-sweep="routers"]');
  check('areas to choose from', (await tab.evaluate('[...document.getElementById("within").options].map((option) => option.textContent).join(", ")')) === 'all areas, backbone 0.0.0.0, area 0.0.0.1');
  await choose('0.0.0.0');
  const backbone = await swept(), rows = await rowsOf(tab), failed = answers(['fail r1', 'changes'])[1].counts;
  check('routers of the backbone', backbone === 'fail r1, fail r2, fail r3', backbone);
  check('what one of them does', rows.some(([line, , lost, gone, dearer]) => line === 'fail r1' && [lost, gone, dearer].join() === [failed.lost, failed.gone, failed.dearer].join()), JSON.stringify(rows));
  await choose('');
  const all = await swept();
  check('routers of all areas', all === 'fail r1, fail r2, fail r3, fail r4, fail r5', all);
  await choose('0.0.0.1');
  const shown = (await rowsOf(tab)).map(([line]) => line).sort().join(', ');
  check('of them those of an area', shown === 'fail r2, fail r3, fail r4, fail r5' && (await tab.evaluate('picture.heat.size')) === 4, shown);
  await tab.picture(path.join(folder, 'within.png'));
  await tab.evaluate('makeReport().then(() => 0)');
  const losing = [2, 3, 4, 5].filter((one) => answers([`fail r${one}`, 'changes'])[1].counts.lost).length, printed = await textOf(tab, '#report');
  check('a sweep is printed', losing > 0 && printed.includes(`One more failure within area 0.0.0.1: ${losing} of 4 lose routes`) && (await tab.evaluate('document.querySelectorAll("#report .bar").length')) === 4);
  await choose('');
  await tab.click('[data-sweep="all"]');
  await setText(tab, ['']);
}

// A saved page in which somebody put another dump says that its outcome is another one.
async function changeSaved(browser, html) {
  const other = path.join(folder, 'other.oswp'), changed = path.join(folder, 'changed.html');
  spawnSync(program, ['--dump', dump, '--names', hosts, '--out', other], { input: 'fail-link 0.0.0.0 r1 r3\n' });
  fs.writeFileSync(changed, fs.readFileSync(html, 'utf8').replace(/(id="saved">\{"dump":")[^"]*/, (_all, front) => front + fs.readFileSync(other).toString('base64')));
  const tab = await open(browser, `file://${changed}`);
  await tab.settle();
  check('another dump in a saved page is reported', (await textOf(tab, '#saved-note')).startsWith('✕'), await textOf(tab, '#saved-note'));
}

async function saveAll(browser, tab) {
  await setText(tab, ['fail-link 0.0.0.0 r1 r2', 'expect lost none']);
  const html = path.join(folder, 'saved.html');
  fs.writeFileSync(html, await tab.evaluate('pageWith()'));
  const again = await open(browser, `file://${html}`);
  await again.settle();
  check('a saved page opens', (await textOf(again, '#verdict')) === (await textOf(tab, '#verdict')) && (await valueOf(again, 'text')) === 'fail-link 0.0.0.0 r1 r2\nexpect lost none');
  check('it calculates again, and has the same outcome', (await textOf(again, '#saved-note')).startsWith('✓'), await textOf(again, '#saved-note'));
  await setText(again, ['fail-link 0.0.0.0 r1 r2']);
  check('another outcome is reported', (await textOf(again, '#saved-note')).startsWith('✕'));
  await changeSaved(browser, html);
  check('a saved page says nothing', again.printed.length === 0, again.printed.join('; '));
  check('a saved page asks for nothing', again.requests.every((url) => /^(file|blob):/.test(url)), again.requests.join(' '));
  const left = path.join(folder, 'left.oswp');
  const saved = await tab.evaluate(`(async () => toBase64((await calculator.study({ dump: state.dump, names: state.names, study: bytes('fail-link 0.0.0.0 r1 r2'), wantsDump: true, json: false })).dump))()`);
  spawnSync(program, ['--dump', dump, '--names', hosts, '--out', left], { input: 'fail-link 0.0.0.0 r1 r2\n' });
  check('the dump that is left', fs.readFileSync(left).toString('base64') === saved);
}

// A saved session is opened with its edits done.
async function openSession(browser) {
  const session = path.join(folder, 'session.oswp');
  spawnSync(plan, ['--dump', dump, '--save', session], { input: 'fail-link 0.0.0.0 1.1.1.1 2.2.2.2\n' });
  const tab = await open(browser, `file://${page}`);
  await tab.settle();
  await tab.pick(session, hosts);
  await tab.settle();
  await compareChanges(tab, 'a saved session', ['fail-link 0.0.0.0 r1 r2']);
}

// Counts of changes in words.
function wordsOf(counts) {
  const words = Object.entries({ lost: counts.lost, gone: counts.gone, dearer: counts.dearer, moved: counts.moved + counts.type, better: counts.cheaper + counts.gained });
  return words.filter(([, count]) => count).map(([word, count]) => `${count} ${word}`).join(' · ');
}

// What the card says that an action would change is what it changes.
async function foresee(_browser, tab) {
  await setText(tab, ['']);
  await tab.evaluate('select("4.4.4.4")');
  await tab.until('/\\d/.test(document.querySelector("#card [data-key=f] .forecast").textContent)');
  const { counts } = answers(['fail r4', 'changes'])[1];
  const wanted = wordsOf(counts);
  check('a forecast', (await textOf(tab, '#card [data-key=f] .forecast')) === wanted, await textOf(tab, '#card [data-key=f] .forecast'));
  await tab.evaluate('select(null)');
}

// The number of times that what is drawn along a link begins: once for a line, and for each of its dashes.
const dashesOf = (tab, one, other) => tab.evaluate(`(() => {
  const edge = [...picture.edges.values()].find(({ a, b }) => [a, b].sort().join() === ${JSON.stringify([one, other].sort().join())}), [[x, y], [u, v]] = picture.endsOf(edge);
  const { width, height } = picture, length = Math.hypot(u - x, v - y), context = Object.assign(document.createElement('canvas'), { width, height }).getContext('2d', { willReadFrequently: true });
  picture.drawIn(context);
  const points = context.getImageData(0, 0, width, height).data, [dx, dy] = [(u - x) / length, (v - y) / length];
  const ink = (at) => [-1, 0, 1].some((side) => points[4 * (Math.round(y + dy * at + dx * side) * width + Math.round(x + dx * at - dy * side)) + 3] > 128);
  return Array.from({ length: Math.floor(length) - 100 }, (_, k) => ink(k + 50) && !ink(k + 49)).filter(Boolean).length;
})()`);

// Links that changed have dashes in the picture: nothing is shown by colors alone.
async function drawDashes(_browser, tab) {
  await setText(tab, ['cost 0.0.0.0 r1 r2 40', 'fail-link 0.0.0.1 r2 r4']);
  await tab.click('#tab-Changes');
  await tab.evaluate('picture.layers = { costs: false, areas: false }, select(null)');
  const [plain, cost, failed] = [await dashesOf(tab, '1.1.1.1', '3.3.3.3'), await dashesOf(tab, '1.1.1.1', '2.2.2.2'), await dashesOf(tab, '2.2.2.2', '4.4.4.4')];
  check('dashes of changed links', plain <= 1 && cost > 3 && failed > cost, [plain, cost, failed].join());
  const legend = await tab.evaluate('[...document.querySelectorAll("#legend > span")].filter((one) => one.querySelector(":scope > svg")).map((one) => [one.textContent.trim(), one.querySelector("line").getAttribute("stroke-dasharray")].join(": "))');
  check('they are explained', JSON.stringify(legend) === '["failed: 5 4","10→40 cost set: 14 3 3 3"]', JSON.stringify(legend));
  await tab.evaluate('picture.layers = { costs: true, areas: true }, picture.draw()');
  await tab.picture(path.join(folder, 'dashes.png'));
}

const menuOf = (tab) => tab.evaluate('[...document.querySelectorAll("#menu:popover-open [role=menuitem]")].map((item) => item.firstChild.textContent)');
const offeredIn = (tab) => tab.evaluate('[...document.querySelectorAll("#card .actions button")].map((item) => item.firstChild.textContent)');
const focused = (tab) => tab.evaluate('document.activeElement.id || document.activeElement.firstChild?.textContent');

// What a router uses, as `routes` answers: with what it was, by neighbor, address and interface, and the longest match of an address.
async function listRoutes(_browser, tab) {
  const lines = ['cost 0.0.0.0 r1 r3 40'];
  await setText(tab, lines);
  await tab.click('#tab-Routes');
  const submit = (router, address) => tab.evaluate(`{ const form = document.querySelector('#pane form'); form.elements.router.value = '${router}'; form.elements.address.value = '${address}'; form.requestSubmit(); }`);
  await submit('r1', '');
  await tab.settle();
  const [, { routes }, { changes }] = answers([...lines, 'routes r1', 'changes r1']), was = (prefix) => changes.find((one) => one.prefix === prefix);
  const cost = (route) => route.kind === 'own' ? `own ${route.metric}` : route.kind === 'ext2' ? `${route.metric} + ${route.cost}` : String(route.cost);
  const way = ({ kind, router, addresses, out }) => `${kind === 'via' ? `r${router[0]} ${addresses.join('/')}` : kind}${out ? ` out ${out}` : ''}`;
  const wanted = routes.map((route) => [was(route.prefix)?.change ?? '', route.prefix, route.kind, cost(route), was(route.prefix) ? cost(was(route.prefix).was) : '', route.area ?? '', route.kind === 'own' ? 'its own' : route.ways.map(way).join('')]);
  const rows = (await rowsOf(tab)).map(([change, ...cells]) => [change.split(' ').at(-1), ...cells.slice(0, 5), cells[5].replace(/ was .*/, '')]);
  check('routes of a router', routes.length > 4 && changes.length > 0 && JSON.stringify(rows) === JSON.stringify(wanted), JSON.stringify([rows, wanted]));
  await tab.picture(path.join(folder, 'routes.png'));
  const [, answer] = answers([...lines, 'explain r1 10.1.5.0/24']), whyOf = '#pane [aria-label="Why 10.1.5.0/24 is so"]';
  await tab.click(whyOf);
  await tab.until('document.querySelector("#pane .drawer")');
  const [used, lost] = ['used', 'lost'].map((kind) => answer.candidates.filter((one) => one.state === kind));
  const reasons = [answer.rule, ...[...used, ...lost].map((one) => `${one.state === 'used' ? '✓' : '✕'} area ${one.lsa.area} summary ${one.lsa.prefix} by r${one.lsa.router[0]} distance ${one.distance} metric ${one.metric}: ${one.rule}`),
    ...answer.steps.map((one) => `r${one.router[0]} → r${one.to[0]} out ${one.out} cost ${one.cost}, ${one.sum} in all`), ...answer.rests.map((one) => `area ${one.area} ${one.type === 1 ? 'router ' : `summary ${one.prefix} by `}r${one.router[0]}`)];
  const drawn = await tab.evaluate('[...document.querySelectorAll("#pane .drawer b, #pane .drawer li")].map((one) => one.textContent)');
  check('why a route is so', used.length === 1 && lost.length === 1 && JSON.stringify(drawn) === JSON.stringify(reasons), JSON.stringify([drawn, reasons]));
  check('below the route', (await tab.evaluate('document.querySelector("#pane .drawer").previousElementSibling.cells[1].textContent')) === '10.1.5.0/24' && (await tab.evaluate(`document.querySelector('${whyOf}').ariaExpanded`)) === 'true');
  await tab.picture(path.join(folder, 'why.png'));
  await tab.click(whyOf);
  check('and closed', !(await tab.evaluate('Boolean(document.querySelector("#pane .drawer"))')) && (await tab.evaluate(`document.querySelector('${whyOf}').ariaExpanded`)) === 'false');
  await submit('r4', '10.1.5.1');
  await tab.settle();
  const [, { routes: [match] }] = answers([...lines, 'routes r4 10.1.5.1']), [first] = await rowsOf(tab);
  check('the longest match', first[1] === match.prefix && (await rowsOf(tab)).length === 2, JSON.stringify(await rowsOf(tab)));
  await submit('r1', '');
  await tab.settle();
}

// Flags in the picture, where a router announces more or less; the card says what, and edits that were taken back do not count.
async function flagAnnouncements(_browser, tab) {
  await setText(tab, ['drop-external r1 0.0.0.0/0', 'add-stub 0.0.0.1 r5 10.9.0.0/24 1', 'add-stub 0.0.0.1 r4 10.9.1.0/24 1', 'undo 1', '']);
  await tab.evaluate('showAfter(4)');
  await tab.settle();
  const flags = await tab.evaluate('[...picture.nodes.values()].filter(({ flag }) => flag).map(({ label, flag }) => label + flag).join()');
  check('flags', flags === 'r1−,r5+', flags);
  await tab.evaluate('select("5.5.5.5")');
  check('what is announced', (await textOf(tab, '#card .dim')) === 'announces 10.9.0.0/24', await textOf(tab, '#card .dim'));
  const ring = await tab.evaluate('[...document.querySelectorAll("#legend span span")].map((one) => one.textContent.trim()).join()');
  check('parts of rings that are drawn are explained', ring === 'lost,better', ring);
  check('flags are explained', (await textOf(tab, '#legend')).includes('⚑ announces more (+) or less (−)'));
  await tab.evaluate('select(null)');
  await tab.picture(path.join(folder, 'flags.png'));
  await setText(tab, ['fail-router r4', 'undo 1', 'fail-net 0.0.0.1 10.1.0.5']);
  check('what may loop after what was taken back', JSON.stringify(await tab.evaluate('state.answers.now.microloops.loops')) === JSON.stringify(answers(['fail-router r4', 'undo 1', 'fail-net 0.0.0.1 10.1.0.5', 'microloops 1'])[3].loops));
}

// Where a line failed, Show lists what was found; and what the page did is taken back by it too.
async function showWhatFailed(_browser, tab) {
  const shows = async (line, more = []) => {
    await setText(tab, ['fail-link 0.0.0.0 r1 r2', line, ...more]);
    await tab.click('#tab-Elements');
    await tab.click('#drawn .failed .acts button');
    await tab.settle();
    return tab.evaluate('[state.tab, state.shown, document.querySelector("#pane tbody tr.row td")?.textContent ?? ""].join()');
  };
  check('what is lost', (await shows('expect lost none', ['expect same'])).startsWith('Changes,2,'), await tab.evaluate('state.tab'));
  check('of it alone', (await tab.evaluate('[...document.querySelectorAll("#pane .chip[aria-pressed=true]")].map((one) => one.textContent).join()')) === '✕ lost 3');
  await tab.click('#pane .chip[aria-pressed=true]');
  check('blackholes', (await shows('expect blackholes none')) === 'Loops,2,blackhole', await tab.evaluate('state.tab'));
  check('a path', (await shows('expect path r4 8.8.8.8 avoids r3')).startsWith('Path,2,') && (await tab.evaluate('[state.path.from, state.path.to].join()')) === '4.4.4.4,8.8.8.8', await tab.evaluate('state.tab'));
  await setText(tab, ['fail-router r4']);
  check('a path from what failed', (await tab.evaluate('document.querySelector("#pane .now h3 .dim").textContent')) === 'N1 NoRouter r4 (it is in the baseline alone)', await tab.evaluate('document.querySelector("#pane .now h3 .dim").textContent'));
  await setText(tab, ['fail-router r4', 'refresh', 'undo 1', 'undo 1', '']);
  check('what was taken back', (await marksOf(tab)).trim() === 'edit edit back back', await marksOf(tab));
  const said = await tab.evaluate('[...document.querySelectorAll("#drawn .back")].map((row) => row.querySelector(".said, .answer").firstChild.textContent)');
  check('and what is left', said[0] === `1 edit taken back, ${wordsOf(answers(['fail-router r4', 'changes'])[1].counts)}` && said[1] === '1 edit taken back, no table is changed', said.join('; '));
}

// The card of a router lists its links, which are selected there; and what failed is taken back by its name too.
async function listLinks(_browser, tab) {
  await setText(tab, ['fail-router r4', '']);
  await tab.evaluate('state.listsLinks = true, select("2.2.2.2")');
  const listed = await tab.evaluate('[...document.querySelectorAll("#card details button")].map((one) => [...one.children].map((part) => part.textContent).join(" ")).join(", ")');
  check('links of a router', listed === 'r1 0.0.0.0 10 / 10, r4 0.0.0.1 10 / ✕', listed);
  await tab.click('#card details button');
  check('one of them is selected', (await textOf(tab, '#card h2')) === 'r1 – r2', await textOf(tab, '#card h2'));
  await tab.evaluate('state.listsLinks = false, select(null), document.getElementById("picture").focus()');
  await tab.key('/', 191);
  await tab.type('remove r4');
  check('what failed is found', (await suggested(tab))[0] === 'Remove line 1: r4 is failed', JSON.stringify(await suggested(tab)));
  await tab.key('Enter', 13);
  await tab.settle();
  check('and its line goes', (await valueOf(tab, 'text')) === '', await valueOf(tab, 'text'));
}

// The second button of a mouse opens a menu at a router, with what its card offers; it is closed without a line, or adds one.
async function openMenus(_browser, tab) {
  await setText(tab, ['']);
  await tab.evaluate('select(null)');
  await tab.clickAt(...await tab.evaluate('picture.placeOf("4.4.4.4")'), 'right');
  check('a menu at a router', JSON.stringify(await menuOf(tab)) === '["Fail","Drain","Path from here","Path to here","Routes"]', JSON.stringify(await menuOf(tab)));
  check('it offers what the card offers', JSON.stringify(await menuOf(tab)) === JSON.stringify(await offeredIn(tab)), JSON.stringify(await offeredIn(tab)));
  check('it is of that router', (await tab.evaluate('document.getElementById("menu").getAttribute("aria-label")')) === 'r4' && (await textOf(tab, '#card h2')) === 'r4');
  await tab.until('/\\d/.test(document.querySelector("#menu [data-key=f] .forecast").textContent)');
  const said = await textOf(tab, '#menu [data-key=f] .forecast');
  check('what the menu foresees', said === wordsOf(answers(['fail r4', 'changes'])[1].counts), said);
  await tab.picture(path.join(folder, 'menu.png'));
  await tab.clickAt(...await tab.evaluate('(({ left, bottom }) => [left + 30, bottom - 60])(document.getElementById("map").getBoundingClientRect())'));
  check('a click beside it closes it', (await menuOf(tab)).length === 0 && (await valueOf(tab, 'text')) === '');
  const key = await tab.evaluate('[...state.graph.edges.values()].find((edge) => edge.a === "1.1.1.1" && edge.b === "2.2.2.2").key');
  await tab.clickAt(...await middleOf(tab, key), 'right');
  check('a menu at a link', JSON.stringify(await menuOf(tab)) === '["Cut","Set cost r1 to r2","Set cost r2 to r1"]', JSON.stringify(await menuOf(tab)));
  await tab.key('Escape', 27);
  await tab.clickAt(...await tab.evaluate('picture.placeOf("net 0.0.0.1 10.1.0.5")'), 'right');
  check('a menu at a LAN', JSON.stringify(await menuOf(tab)) === '["Fail the LAN","Cut r3 from the LAN","Cut r4 from the LAN","Cut r5 from the LAN"]', JSON.stringify(await menuOf(tab)));
  await tab.click('#menu [data-key=f]');
  await tab.settle();
  check('a line of the menu', (await valueOf(tab, 'text')) === 'fail-net 0.0.0.1 10.1.0.5\n' && (await menuOf(tab)).length === 0, await valueOf(tab, 'text'));
  await tab.clickAt(...await tab.evaluate('picture.placeOf("net 0.0.0.1 10.1.0.5")'), 'right');
  check('what failed is taken back there', JSON.stringify(await menuOf(tab)) === '["Remove line 1"]', JSON.stringify(await menuOf(tab)));
  await tab.key('Enter', 13);
  await tab.settle();
  check('its line goes', (await valueOf(tab, 'text')) === '', await valueOf(tab, 'text'));
}

// The same without a mouse: from the picture and from a row of the elements.
async function openMenusByKeys(_browser, tab) {
  await setText(tab, ['']);
  await tab.evaluate('document.getElementById("picture").focus(), select("5.5.5.5")');
  await tab.key('F10', 121, 8);
  check('Shift and F10 open the menu', (await menuOf(tab)).length === 5 && (await focused(tab)) === 'Fail', await focused(tab));
  const { left, top, x, y } = await tab.evaluate('(() => { const { left, top } = document.getElementById("menu").getBoundingClientRect(), [x, y] = picture.placeOf("5.5.5.5"); return { left, top, x, y }; })()');
  check('at the router', Math.abs(left - x) < 12 && Math.abs(top - y) < 200, JSON.stringify([left, top, x, y]));
  await tab.key('ArrowDown', 40);
  await tab.key('ArrowDown', 40);
  check('arrows go from action to action', (await focused(tab)) === 'Path from here', await focused(tab));
  await tab.key('End', 35);
  await tab.key('ArrowDown', 40);
  check('and around', (await focused(tab)) === 'Fail', await focused(tab));
  await tab.key('Escape', 27);
  check('Escape closes it, and the picture has the keys', (await menuOf(tab)).length === 0 && (await focused(tab)) === 'picture' && (await textOf(tab, '#card h2')) === 'r5', await focused(tab));
  await tab.key('ContextMenu', 93);
  check('the Menu key opens it', (await menuOf(tab)).length === 5);
  await tab.key('f');
  await tab.settle();
  check('a letter does its action', (await valueOf(tab, 'text')) === 'fail r5\n', await valueOf(tab, 'text'));
  await tab.click('#tab-Elements');
  await tab.evaluate('document.querySelector("#pane [data-element=\'2.2.2.2\']").focus()');
  await tab.key('ContextMenu', 93);
  check('a menu at a row', (await tab.evaluate('document.getElementById("menu").getAttribute("aria-label")')) === 'r2' && (await menuOf(tab)).length === 5);
  await tab.key('Escape', 27);
  check('the row has the keys again', (await tab.evaluate('document.activeElement.dataset.element')) === '2.2.2.2');
  await setText(tab, ['']);
  await tab.evaluate('select(null), document.getElementById("picture").focus()');
  await tab.key('ContextMenu', 93);
  check('no menu of nothing', (await menuOf(tab)).length === 0);
}

async function print(_browser, tab) {
  await setText(tab, ['cost 0.0.0.0 r1 r2 40', 'expect lost none', 'fail-link 0.0.0.0 r1 r2', 'fail-router r4', 'expect lost none']);
  await tab.evaluate('makeReport().then(() => 0)');
  check('a picture for each change', JSON.stringify(await tab.evaluate('[...document.querySelectorAll("#report [data-step]")].map((one) => Number(one.dataset.step))')) === '[1,4]');
  const steps = await tab.evaluate('[...document.querySelectorAll("#report figure p")].map((one) => one.textContent.split(";")[0])');
  const wanted = [['cost 0.0.0.0 r1 r2 40'], ['cost 0.0.0.0 r1 r2 40', 'fail-link 0.0.0.0 r1 r2', 'fail-router r4']].map((lines) => wordsOf(answers([...lines, 'changes'])[lines.length].counts));
  check('with what changed', JSON.stringify(steps) === JSON.stringify(wanted), JSON.stringify([steps, wanted]));
  const { data } = await tab.send('Page.printToPDF', { preferCSSPageSize: true });
  const pdf = Buffer.from(data, 'base64');
  fs.writeFileSync(path.join(folder, 'printed.pdf'), pdf);
  const pages = pdf.toString('latin1').match(/\/Type\s*\/Page\b/g)?.length;
  check('it is printed on one page or two', pages === 1 || pages === 2, String(pages));
  check('the picture is printed', await tab.evaluate('document.querySelector("#report canvas").getContext("2d").getImageData(0, 0, 2000, 1000).data.some((byte) => byte)'));
}

// The report has the paths that lines name, as loaded and at their lines: of examples/README.md, by hand.
async function printPaths(_browser, tab) {
  await setText(tab, ['path r4 10.0.12.1', 'cost 0.0.0.0 r1 r3 20', 'expect route r1 10.1.5.0/24 cost <= 31', 'expect path r1 10.1.5.1 delivered', 'fail-router r3', 'expect path r1 10.1.5.1 avoids r3', 'path r9 10.1.5.1', '# path r1 10.0.0.1']);
  await tab.evaluate('makeReport().then(() => 0)');
  const rows = await tab.evaluate('[...[...document.querySelectorAll("#report h2")].find((one) => one.textContent === "Paths that the study names").nextSibling.tBodies[0].rows].map((one) => [...one.cells].map((cell) => cell.textContent).join(" | "))');
  const wanted = [
    'r4, 10.0.12.1 | r4 → r2 (20) | r4 → r2 (20) | 1', 'r1, 10.1.5.1 | r1 → r3 → r5 (21) | r1 → r2 → r4 → r5 or r1 → r3 → r5 (31) | 3, 4', 'r1, 10.1.5.1 | r1 → r3 → r5 (21) | r1 → r2 → r4 → r5 (31) | 6',
  ];
  check('named paths', JSON.stringify(rows) === JSON.stringify(wanted), JSON.stringify(rows));
  const listed = await tab.evaluate('[...document.querySelectorAll("#report ol li")].map((one) => one.querySelector("span")?.textContent.trim() ?? "")');
  const [, , route, , , last] = answers(['path r4 10.0.12.1', 'cost 0.0.0.0 r1 r3 20', 'expect route r1 10.1.5.0/24 cost <= 31', 'expect path r1 10.1.5.1 delivered', 'fail-router r3', 'expect path r1 10.1.5.1 avoids r3']);
  check('lines with their answers', listed[0] === 'r4 → r2 (20)' && listed[2] === `ok, ${short(route.found)}` && listed[5] === `ok, ${short(last.found)}` && listed[6] === 'fault, S6 BadAddress r9 (names have r1)' && listed[7] === '', JSON.stringify(listed));
  const said = await textOf(tab, '#report');
  check('the status of the program', said.includes('ends with status 1.') && (await tab.evaluate('verdict().wrong.length')) === 1);
  await setText(tab, ['# CHG-1  r3 goes', '#', '# at night', '', 'expect lost none', '# no title']);
  await tab.evaluate('makeReport().then(() => 0)');
  check('a title of the comments', (await tab.evaluate('[...document.querySelectorAll("#report h1, #report h1 + p")].map((one) => one.textContent).join(" | ")')) === 'CHG-1  r3 goes | at night', await textOf(tab, '#report h1'));
  check('the status where a study holds', (await textOf(tab, '#report')).includes('ends with status 0.'));
  check('no paths where no line names one', !(await tab.evaluate('document.getElementById("report").textContent')).includes('Paths that'));
}

async function refuse(_browser, tab) {
  const bad = path.join(folder, 'bad.oswp');
  fs.writeFileSync(bad, fs.readFileSync(dump).subarray(0, 100));
  const about = await textOf(tab, '#about');
  await tab.pick(bad);
  await tab.settle();
  const ended = spawnSync(program, ['--dump', bad], { input: '', encoding: 'utf8' });
  check('a refused dump', (await textOf(tab, '#status')) === `bad.oswp: ${ended.stderr.trim()}`, await textOf(tab, '#status'));
  check('what was open stays', (await textOf(tab, '#about')) === about);
}

// Each button and field has a name, and what is drawn is listed too.
async function readOut(_browser, tab) {
  const unnamed = await tab.evaluate(`[...document.querySelectorAll('button, input:not([hidden]), textarea')]
    .filter((one) => one.offsetParent && !one.textContent.trim() && !one.ariaLabel && !one.labels?.length && !one.getAttribute('aria-label')).map((one) => one.outerHTML)`);
  check('each control has a name', unnamed.length === 0, unnamed.join(' '));
  await tab.click('#tab-Elements');
  const listed = (await rowsOf(tab)).length;
  check('the elements are listed', listed === (await tab.evaluate('state.graph.nodes.size + state.graph.edges.size')), String(listed));
  await tab.key('ArrowLeft', 37);
  check('tabs by keys', (await tab.evaluate('document.activeElement.id')) === 'tab-Routes', await tab.evaluate('document.activeElement.id'));
  await tab.evaluate('document.getElementById("theme").click()');
  check('dark and light', (await tab.evaluate('document.documentElement.dataset.theme')) === 'dark');
  await tab.picture(path.join(folder, 'dark.png'));
}

// Requests that the page's policy forbids, and which part of it does.
async function beForbidden(_browser, tab) {
  await tab.evaluate("window.violated = []; document.addEventListener('securitypolicyviolation', (event) => violated.push(event.effectiveDirective)); 0");
  const said = await tab.evaluate('fetch("https://example.com/").then(() => "asked", (error) => String(error))');
  const image = await tab.evaluate('new Promise((done) => { const one = new Image(); one.onload = () => done("asked"); one.onerror = () => done("no"); one.src = "https://example.com/a.png"; })');
  await tab.evaluate('{ const script = document.createElement("script"); script.textContent = "window.ran = true"; document.head.append(script); }');
  await tab.evaluate('{ const form = document.createElement("form"); form.action = "https://example.com/"; document.body.append(form); form.requestSubmit(); }');
  await tab.until('violated.length >= 4', 10).catch(() => {});
  const violated = (await tab.evaluate('violated')).sort().join(' ');
  check('requests are forbidden', said.startsWith('TypeError') && image === 'no' && !(await tab.evaluate('window.ran === true')), said);
  check('by the policy', violated === 'connect-src form-action img-src script-src-elem', violated);
}

// A thousand routers in a grid, as a dump of router-LSAs that grid.py writes.
async function moveThousand(browser) {
  const grid = path.join(folder, 'grid.oswp');
  execFileSync('/usr/bin/python3', [path.join(__dirname, 'grid.py'), '25', '40', grid]);
  const tab = await open(browser, `file://${page}`);
  await tab.settle();
  await tab.pick(grid);
  await tab.settle(300);
  check('a thousand routers', (await textOf(tab, '#about')).includes('1000 routers'), await textOf(tab, '#about'));
  // Beside other work frames come late, so what counts then is the processor time that the page takes for each.
  await tab.send('Performance.enable');
  const spent = async () => (await tab.send('Performance.getMetrics')).metrics.find(({ name }) => name === 'ProcessTime').value;
  const before = await spent();
  const frames = await tab.evaluate(`(async () => {
    const begun = performance.now();
    let count = 0;
    for (; performance.now() - begun < 2000; count++) {
      picture.pan(2, 1);
      await new Promise(requestAnimationFrame);
    }
    return count;
  })()`);
  const each = (await spent() - before) / frames;
  check('thirty frames a second', frames >= 60 || each <= 1 / 30, `${frames / 2} a second, ${each} s of processor time each`);
  await tab.picture(path.join(folder, 'thousand.png'));
}

// Eight thousand routers: lists alone, and the changes of a chosen router.
async function listThousands(browser) {
  const grid = path.join(folder, 'large.oswp');
  execFileSync('/usr/bin/python3', [path.join(__dirname, 'grid.py'), '64', '128', grid]);
  const tab = await open(browser, `file://${page}`);
  await tab.settle();
  await tab.pick(grid);
  await tab.settle(300);
  check('8,192 routers', (await textOf(tab, '#about')).includes('8192 routers'), await textOf(tab, '#about'));
  check('they are not drawn', !(await tab.evaluate('document.getElementById("without").hidden')));
  await tab.click('#tab-Elements');
  check('they are listed', (await rowsOf(tab)).length > 1000);
  await setText(tab, ['fail-router 1.0.0.2']);
  await tab.click('#tab-Changes');
  const [, { counts }] = execFileSync(program, ['--dump', grid, '--format', 'json'], { input: 'fail-router 1.0.0.2\nchanges 1.0.0.1\n', encoding: 'utf8', maxBuffer: 2 ** 30 }).split('\n').slice(0, 2).map((line) => JSON.parse(line));
  check('the changes of a router', (await countsOf(tab)).lost === counts.lost && (await countsOf(tab)).gone === counts.gone && (await countsOf(tab)).dearer === counts.dearer, JSON.stringify(counts));
  await tab.picture(path.join(folder, 'large.png'));
}

// Nothing was printed, and nothing was asked for, in all that was done before.
async function beQuiet(_browser, tab) {
  check('the page says nothing', tab.printed.length === 0, tab.printed.join('; '));
  check('the page asks for nothing', tab.requests.every((url) => /^(file|blob):/.test(url)), tab.requests.join(' '));
}

// What is done, in this order: in a page in which the files are open, and with others beside it.
const PARTS = [
  cutByMouse, useKeys, editStudy, showPaths, sweepAll, sweepWithin, foresee, openMenus, openMenusByKeys, listLinks, listRoutes, flagAnnouncements, showWhatFailed, drawDashes, typeLines, answerAtLines, keepRows, endEarly, typeAbove, complete, findAndDo, saveAll, print, printPaths, dropFiles, openCaptures, openSession, refuse,
  readOut, beQuiet, beForbidden, trySamples, auditRegion, moveThousand, listThousands,
];

async function main() {
  fs.mkdirSync(folder, { recursive: true });
  const browser = begin();
  try {
    const tab = await open(browser, `file://${page}`);
    await tab.settle();
    await openFiles(tab);
    for (const part of PARTS) if (!chosen.length || chosen.includes(part.name)) await part(browser, tab);
  } catch (error) {
    failed++;
    console.log(error);
  }
  await browser.close();
  console.log(`the page: ${passed} passed, ${failed} failed`);
  process.exit(failed || !passed ? 1 : 0);
}

main();
