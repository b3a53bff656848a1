// Files that are opened: databases, names, studies, and what ospf-capture makes a database of. Several databases may be open;
// one is shown, and another may be what it is compared with.

// Opens a dump or a saved session, and calculates what is shown of it. What was open stays if the dump is refused.
async function open(dump, name, { names = null, study = null, studyName = null, found: findings = null, baseline = null, places = null } = {}) {
  isBusy(true);
  const given = { ...asked('routers\ninfo\nhelp\n'), dump, names: names ?? state.names, baseline: null };
  const answer = await calculator.study(given);
  if (answer.status > 1) {
    report(`${name}: ${text(answer.errors).trim() || 'memory ran out'}`);
    isBusy(false);
    return false;
  }
  const [{ routers }, { done }, { words }] = documentsOf(answer);
  keepStudy();
  Object.assign(state, {
    dump, dumpName: name, names: given.names, done, baseline, chosen: null, selected: null, path: null, audit: null, differences: null, sweep: null, sweepArea: null, found: findings,
    folded: new Set(), filter: '', kind: null, table: routers[0]?.router ?? null, routerCount: routers.length, isLarge: routers.length > MOST_CALCULATED,
    grammar: new Grammar(words), places,
  });
  if (study !== null) editor.set(study);
  if (studyName) $('study-name').value = studyName;
  if (findings) state.tab = 'Files';
  else if (state.tab === 'Files') state.tab = 'Changes';
  remember();
  $('empty').hidden = true;
  $('fault').textContent = '';
  await calculate(true);
  return true;
}

// Keeps the study of the database that is shown, for when it is shown again.
function keepStudy() {
  if (state.network) Object.assign(state.network, { names: state.names, baseline: state.baseline, study: editor.text.value, studyName: $('study-name').value });
}

// Lists the database that is shown among those that are open, in the place of an earlier one of its name.
function remember() {
  const { dump, dumpName: name, found: findings } = state;
  state.network = { name, dump, found: findings };
  const at = state.networks.findIndex((one) => one.name === name);
  if (at < 0) state.networks.push(state.network);
  else state.networks[at] = state.network;
}

// What a database is compared with: another one, or what it was as it was loaded (null).
async function compareWith(baseline) {
  if (baseline) {
    const answer = await calculator.study({ ...asked('info\n'), baseline: baseline.dump });
    if (answer.status > 1) {
      report(`${baseline.name}: ${text(answer.errors).trim()}`);
      return;
    }
  }
  state.baseline = baseline;
  Object.assign(state, { differences: null, sweep: null });
  await calculate(false);
}

const isNames = (content) => /^\s*(#|\d+\.\d+\.\d+\.\d+\s)/m.test(content);
const isListed = (content) => /^\s*Link ID\s+ADV Router/m.test(content) && !/^\s*LS age:/m.test(content);

// What a file is: a dump or a session begins with OSWP; a study and names are short texts; lists are of what a router has, and
// all else is for ospf-capture.
function kindOf(name, content) {
  if (text(content.subarray(0, 4)) === 'OSWP') return 'dump';
  if (/\.study$/.test(name)) return 'study';
  if (content.length > 1 << 20 || content.subarray(0, 4096).includes(0)) return 'capture';
  const lines = text(content);
  if (/\.hosts$|^hosts$/.test(name) || (isNames(lines) && lines.split('\n').every((line) => /^\s*(#.*|\d+\.\d+\.\d+\.\d+\s.*|\S*:.*)?$/.test(line)))) return 'names';
  if (isListed(lines)) return 'list';
  return lines.split('\n').some((line) => EDITS.has(wordOf(line)) || QUESTIONS.has(wordOf(line))) ? 'study' : 'capture';
}

// Files by what they are, each in the order of their names.
async function sorted(files) {
  const taken = { dump: [], names: [], study: [], capture: [], list: [] };
  for (const file of [...files].sort((one, other) => one.name < other.name ? -1 : 1)) {
    const content = new Uint8Array(await file.arrayBuffer());
    taken[kindOf(file.name, content)].push({ name: file.name, bytes: content });
  }
  return taken;
}

// Files that were picked or dropped. With `isBaseline` a dump among them is what the shown database is compared with.
async function take(files, isBaseline = false) {
  if (!files.length) return;
  isBusy(true);
  const taken = await sorted(files), joined = (some) => some.length ? some.map(({ bytes: content }) => text(content)).join('\n') : null;
  const names = joined(taken.names), study = joined(taken.study);
  const more = { names: names === null ? null : bytes(names), study, studyName: taken.study[0]?.name ?? null };
  const isMade = taken.capture.length > 0 && await madeOf(taken, isBaseline, more);
  for (const dump of taken.dump.slice().reverse()) {
    if (isBaseline && state.dump) await compareWith({ name: dump.name, dump: dump.bytes });
    else await open(dump.bytes, dump.name, more);
  }
  if (taken.dump.length > 1 && !isBaseline) toast(`${taken.dump.length} databases are open: Open lists them`);
  if (!taken.dump.length && !isMade) await takeTexts(taken, more);
  isBusy(false);
}

// Names and a study without a dump: for the database that is open.
async function takeTexts(taken, more) {
  if (taken.capture.length) return;
  if (!state.dump) report('none of these files is a dump: one begins with OSWP');
  else if (more.names) await open(state.dump, state.dumpName, { ...more, baseline: state.baseline });
  else if (more.study !== null) {
    editor.set(more.study);
    $('study-name').value = more.studyName;
    await calculate(false);
  } else report('a list is compared with captures, walks or prints: open them together');
}

// Makes a database of captures, walks and prints, if the module can. Returns whether there is one.
async function madeOf({ capture: files, list: lists }, isBaseline, more) {
  const names = files.map(({ name }) => name).join(' ');
  const { readsCaptures } = await calculator.opened;
  if (!readsCaptures) {
    report(`${names}: no dump, names or study, and this page makes no dump of other files. ospf-capture does: ospf-capture --out net.oswp ${names}`);
    return false;
  }
  const answer = await calculator.ask('capture', { files, lists });
  const lines = (part) => text(answer[part]).split('\n').filter(Boolean), findings = { contents: lines('contents'), notices: lines('notices'), warnings: lines('warnings') };
  const name = `${files[0].name}${files.length > 1 ? ` and ${files.length - 1} more` : ''}`;
  if (answer.status > 1) {
    report(findings.warnings.at(-1) ?? `${name}: memory ran out`);
    return false;
  }
  if (isBaseline && state.dump) await compareWith({ name, dump: answer.dump });
  else await open(answer.dump, name, { ...more, found: findings });
  return true;
}

// ---- the list of what is open

function showNetworks() {
  const others = state.networks.filter((one) => one.name !== state.dumpName);
  const item = (label, about, act, attributes = {}) => element('button', { type: 'button', ...attributes, onclick: () => {
    $('networks').hidePopover();
    act();
  } }, label, about ? element('span', {}, about) : null);
  const shown = ({ name, dump, names, study, studyName, found: findings, baseline }) => open(dump, name, { names, study, studyName, found: findings, baseline });
  $('networks').replaceChildren(
    item('Open files', 'dumps, names, studies; or drop them anywhere', () => pick(false), { id: 'open-files' }),
    item('Compare with another database', 'a baseline in place of the loaded database', () => pick(true), { id: 'open-baseline' }),
    state.baseline ? item('Compare with the loaded database', `in place of ${state.baseline.name}`, () => compareWith(null), { id: 'no-baseline' }) : '',
    ...others.flatMap((one) => [
      item(`Show ${one.name}`, null, () => shown(one), { 'data-network': one.name }),
      one.name === state.baseline?.name ? '' : item(`Compare with ${one.name}`, null, () => compareWith(one), { 'data-baseline': one.name }),
    ]),
  );
}

// Lets files be picked.
function pick(isBaseline) {
  state.picksBaseline = isBaseline;
  $('files').click();
}

// Where dropped files go: to the right they are what the shown database is compared with.
const isDroppedRight = (event) => Boolean(state.dump) && event.clientX > innerWidth / 2;

function listenToFiles() {
  const leave = () => { $('over').hidden = true; };
  $('pick').onclick = () => pick(false);
  $('networks').addEventListener('beforetoggle', ({ newState }) => { if (newState === 'open') showNetworks(); });
  $('files').onchange = async (event) => {
    await take([...event.target.files], state.picksBaseline);
    event.target.value = '';
    state.picksBaseline = false;
  };
  document.addEventListener('dragover', (event) => {
    if (!event.dataTransfer.types.includes('Files')) return;
    event.preventDefault();
    $('over').hidden = false;
    $('over-baseline').hidden = !state.dump;
    $('over-open').classList.toggle('chosen', !isDroppedRight(event));
    $('over-baseline').classList.toggle('chosen', isDroppedRight(event));
  });
  document.addEventListener('dragleave', (event) => { if (event.relatedTarget === null) leave(); });
  document.addEventListener('drop', (event) => {
    if (!event.dataTransfer.types.includes('Files')) return;
    event.preventDefault();
    leave();
    take([...event.dataTransfer.files], isDroppedRight(event));
  });
}
