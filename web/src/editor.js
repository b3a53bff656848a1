// The study as a text that can be edited. What a line answered lies over the text and is no part of it: a mark before the
// line, what was found after it or below it, and colors.

const MARKS = { ok: '✓', failed: '✕', refused: '!', fault: '!', reply: '•', edit: '▶', back: '◀', skipped: '', running: '' };
const SPOKEN = { skipped: 'not run', fault: 'refused', reply: 'answered', edit: 'done', back: 'done' };

// Where the lines of a text are in another one: those of a common front and of a common end are the same lines.
function lineMoves(old, lines) {
  const most = Math.min(old.length, lines.length);
  let front = 0, end = 0;
  while (front < most && old[front] === lines[front]) front++;
  while (end < most - front && old[old.length - 1 - end] === lines[lines.length - 1 - end]) end++;
  const moved = (number) => number <= front ? number : number > old.length - end ? number + lines.length - old.length : null;
  return { moved, nearest: (number) => moved(number) ?? Math.min(number, lines.length - end) };
}

// Which rows are drawn again as their forms change: at which of them, in the place of how many, and how many.
function changedRows(old, forms) {
  const isSame = (one, other) => one.every((part, k) => part === other[k]);
  if (old.length === forms.length) return forms.flatMap((form, k) => isSame(form, old[k]) ? [] : [[k, 1, 1]]);
  const most = Math.min(old.length, forms.length);
  let front = 0, end = 0;
  while (front < most && isSame(old[front], forms[front])) front++;
  while (end < most - front && isSame(old[old.length - 1 - end], forms[forms.length - 1 - end])) end++;
  return [[front, old.length - front - end, forms.length - front - end]];
}

// Puts children in the place of some of an element.
function putChildren(parent, at, count, children) {
  [...parent.children].slice(at, at + count).forEach((child) => child.remove());
  const next = parent.children[at] ?? null;
  children.forEach((child) => parent.insertBefore(child, next));
}

const hasWords = (line) => /^\s*[^\s#]/.test(line);

// How many of the differences that an edit made are listed at its line.
const MOST_LISTED = 12;

class Editor {
  constructor({ room, text, gutter, drawn }, on) {
    Object.assign(this, { room, text, gutter, drawn, on, answers: new Map(), counts: new Map(), names: new Set(), shown: 0 });
    Object.assign(this, { last: [''], stopped: 0, isRunning: false, opened: new Set(), spoken: 0, field: new LineField(text) });
    text.addEventListener('input', () => this.typed());
    text.addEventListener('keydown', (event) => this.onKey(event));
    document.addEventListener('selectionchange', () => this.speak());
    gutter.addEventListener('click', (event) => {
      const line = event.target.closest('[data-line]');
      if (line) on.show(Number(line.dataset.line));
    });
    new ResizeObserver(() => this.draw()).observe(room);
  }

  // Lines that are the same keep their answers, while the others are answered again.
  typed() {
    const lines = this.lines(), { moved, nearest } = lineMoves(this.last, lines);
    const kept = (map) => new Map([...map].map(([number, value]) => [moved(number), value]).filter(([number]) => number !== null));
    Object.assign(this, { last: lines, answers: kept(this.answers), counts: kept(this.counts), shown: nearest(this.shown), isRunning: true });
    this.opened = new Set([...this.opened].map(moved).filter(Boolean));
    if (this.stopped) this.stopped = nearest(this.stopped);
    this.on.change(nearest);
    this.draw();
  }

  // Another text, whose lines have no answers yet.
  set(text) {
    this.text.value = text;
    this.field.history.clear(this.text.value);
    Object.assign(this, { last: this.lines(), answers: new Map(), counts: new Map(), stopped: 0, isRunning: true, opened: new Set() });
    this.draw();
  }

  onKey(event) {
    const isControl = event.ctrlKey || event.metaKey, by = { ArrowUp: -1, ArrowDown: 1 }[event.key];
    if (isControl && event.key === 'Enter') this.on.show(this.lineOfCaret());
    else if (isControl && event.key === '/') this.comment();
    else if (isControl && ['z', 'y'].includes(event.key.toLowerCase())) this.undo(event.shiftKey || event.key === 'y' ? 'redo' : 'undo');
    else if (event.altKey && by) this.moveLine(by);
    else if (event.key === 'Escape') this.on.leave();
    else return;
    event.preventDefault();
  }

  // The line of the caret changes places with the one above or below it.
  moveLine(by) {
    const number = this.lineOfCaret(), lines = this.lines(), first = Math.min(number, number + by);
    if (first < 1 || first >= lines.length) return;
    const column = this.text.selectionStart - this.startOf(number), start = this.startOf(first);
    this.replace(start, start + lines[first - 1].length + 1 + lines[first].length, `${lines[first]}\n${lines[first - 1]}`);
    const caret = this.startOf(number + by) + column;
    this.text.setSelectionRange(caret, caret);
  }

  // Makes a comment of the line of the caret, or a line of the comment.
  comment() {
    const number = this.lineOfCaret(), line = this.lines()[number - 1];
    this.change(number, /^\s*#/.test(line) ? line.replace(/^\s*# ?/, '') : `# ${line}`);
  }

  // Takes back what was typed or clicked, or does it again.
  undo(command) {
    this.field.step(command === 'redo' ? 1 : -1);
  }

  // Where a line begins in the text.
  startOf(number) {
    return this.lines().slice(0, number - 1).reduce((sum, line) => sum + line.length + 1, 0);
  }

  lines() {
    return this.text.value.split('\n');
  }

  lineOfCaret() {
    return this.text.value.slice(0, this.text.selectionStart).split('\n').length;
  }

  // Puts the caret at the begin of a line, and shows it.
  reveal(number) {
    const at = this.startOf(number);
    this.text.focus();
    this.text.setSelectionRange(at, at);
  }

  // Puts lines after line `at`, as if they were typed, so that Ctrl-Z takes them back.
  insert(at, added) {
    const lines = this.lines();
    const isLast = at >= lines.length;
    const before = lines.slice(0, at).join('\n');
    const start = isLast ? this.text.value.length : at === 0 ? 0 : before.length + 1;
    const lead = isLast && this.text.value && !this.text.value.endsWith('\n') ? '\n' : '';
    this.replace(start, start, `${lead}${added.join('\n')}\n`);
  }

  // Removes lines from one on.
  remove(number, count = 1) {
    const lines = this.lines(), start = this.startOf(number);
    const length = lines.slice(number - 1, number - 1 + count).reduce((sum, line) => sum + line.length + 1, 0);
    this.replace(start, Math.min(this.text.value.length, start + length), '');
  }

  // Writes another line in the place of one.
  change(number, line) {
    const start = this.startOf(number);
    this.replace(start, start + this.lines()[number - 1].length, line);
  }

  replace(start, end, text) {
    this.field.replace(start, end, text);
  }

  // ---- what lies over the text

  // Answers by their lines, and what comes with them: the line after which the network is shown, what edits changed, the names
  // of routers, and the line at which the study ended, or 0.
  show(answers, { shown, counts, names, stopped }) {
    const isSame = names.size === this.names.size && [...names].every((name) => this.names.has(name));
    Object.assign(this, { answers, shown, counts, names: isSame ? this.names : names, stopped, isRunning: false });
    this.draw();
  }

  // Draws what changed: of lines that look as they did, what is there stays.
  draw() {
    const lines = this.lines(), { room, gutter, drawn } = this;
    this.width = room.clientWidth - gutter.clientWidth;
    room.style.setProperty('--room', `${this.width}px`);
    const forms = lines.map((line, k) => this.formOf(k + 1, line)), old = this.forms ?? [], fresh = [];
    this.forms = forms;
    for (const [at, count, put] of changedRows(old, forms)) {
      const rows = lines.slice(at, at + put).map((line, k) => this.drawLine(at + k + 1, line));
      putChildren(drawn, at, count, rows);
      putChildren(gutter, at, count, lines.slice(at, at + put).map((line, k) => this.mark(at + k + 1, line)));
      fresh.push(...rows);
    }
    if (old.length !== forms.length) [...gutter.children].forEach((mark, k) => this.number(mark, k + 1));
    this.stop();
    this.align(new Map(fresh.map((row) => [row, `${row.offsetHeight}px`])));
  }

  // Gives marks and lines of the text the heights of what is drawn at them; `fresh` has those of rows that are new.
  align(fresh) {
    const { gutter, drawn, text } = this, rows = [...drawn.children], marks = [...gutter.children], blocks = [...text.children];
    rows.forEach((row, k) => {
      const height = fresh.get(row) ?? row.dataset.height;
      row.dataset.height = height;
      for (const one of [marks[k], blocks[k]]) if (one.style.height !== height) one.style.height = height;
    });
  }

  // All on which it depends how a line looks, but for its number.
  formOf(number, line) {
    const answer = this.answers.get(number), isOpen = this.opened.has(number), place = Math.sign(number - this.shown);
    return [line, this.stateOf(number), this.said(number), answer?.at, answer?.differences?.length, isOpen && answer, place, this.shown > 0, this.width, this.names];
  }

  stateOf(number) {
    const answer = this.answers.get(number);
    if (this.stopped && number > this.stopped) return hasWords(this.last[number - 1] ?? '') ? 'skipped' : '';
    if (!answer) return this.isRunning && hasWords(this.last[number - 1] ?? '') ? 'running' : '';
    return answer.answer !== 'ok' ? answer.answer : EDITS.has(answer.word) ? 'edit' : STEPS.has(answer.word) ? 'back' : 'ok';
  }

  // The mark of a line: a button that shows the state after it.
  mark(number, line) {
    const state = this.stateOf(number), mark = element('button', { type: 'button', tabindex: -1, class: `mark ${state}${number === this.shown ? ' shown' : number < this.shown ? ' before' : ''}` });
    mark.title = [this.said(number), 'Show the network after this line (Ctrl Enter)'].filter(Boolean).join('\n');
    mark.dataset.about = `${line}${state ? `, ${SPOKEN[state] ?? state}` : ''}`;
    mark.append(element('i', {}, MARKS[state] ?? ''), element('span'));
    this.number(mark, number);
    return mark;
  }

  // Writes the number of its line into a mark.
  number(mark, number) {
    mark.dataset.line = number;
    mark.lastChild.textContent = number;
    mark.setAttribute('aria-label', `line ${number}: ${mark.dataset.about}`);
  }

  // A line in colors, and what it answered: after it where there is room, else below it.
  drawLine(number, line) {
    const answer = this.answers.get(number), code = element('div', { class: 'code', 'aria-hidden': 'true' }, this.colored(line, answer?.code ? answer.at : null));
    const said = this.said(number), more = this.moreOf(number, answer), isWrong = ['failed', 'refused', 'fault'].includes(answer?.answer) && said;
    const state = `${this.stateOf(number)}${number === this.shown ? ' shown' : ''}${this.shown && number > this.shown ? ' after' : ''}`;
    const fits = !isWrong && this.width - 8.2 * line.length - 40 > 6 * said.length + (more.length ? 90 : 0);
    const below = isWrong || (said && !fits) || this.opened.has(number), row = element('div', { class: state }, code);
    if (said && fits) code.append(element('span', { class: 'said' }, said, below ? null : more));
    if (!below) return row;
    const acts = isWrong ? element('span', { class: 'acts' }, this.on.actions(() => this.numberOf(row), line, answer)) : null;
    row.append(element('div', { class: `answer${isWrong || this.opened.has(number) ? '' : ' late'}` }, fits ? '' : said, acts ?? '', more, this.listOf(number, answer) ?? ''));
    return row;
  }

  // The number of the line of which something is drawn, which may have moved since it was drawn.
  numberOf(part) {
    return [...this.drawn.children].findIndex((row) => row.contains(part)) + 1;
  }

  // A button that lists what an edit changed in the database, where its answer has it.
  moreOf(number, { answer, differences, word } = {}) {
    if (answer !== 'ok' || !differences?.length || !EDITS.has(word)) return [];
    const isOpen = this.opened.has(number), flip = ({ target }) => {
      const at = this.numberOf(target);
      this.opened[isOpen ? 'delete' : 'add'](at);
      this.draw();
      this.drawn.children[at - 1].querySelector('[aria-expanded]')?.focus();
    };
    return [element('button', { type: 'button', 'aria-expanded': String(isOpen), title: 'What the line changed in the database', onclick: flip }, `${differences.length} LSA change${differences.length === 1 ? '' : 's'}`)];
  }

  // What an edit changed in the database, once it was asked for.
  listOf(number, { differences = [] } = {}) {
    if (!this.opened.has(number)) return null;
    const rest = differences.length - MOST_LISTED;
    return element('ul', {}, differences.slice(0, MOST_LISTED).map((one) => element('li', {}, named(differenceText(one)))), rest > 0 ? element('li', {}, `and ${rest} more`) : null);
  }

  // What a line answered, in words.
  said(number) {
    const counts = this.counts.get(number);
    const answer = this.answers.get(number);
    if (this.stateOf(number) === 'skipped') return 'not run';
    if (!answer) return '';
    if (this.stateOf(number) === 'edit') return counts ? countsText(counts) || 'changes no table' : 'done';
    if (this.stateOf(number) === 'back') return stepText(this.last[number - 1], counts);
    if (answer.answer === 'reply') return named(replyText(answer, this.on.name));
    if (answer.answer === 'failed' || answer.code) return named(found(answer));
    return named(answer.found ?? '');
  }

  // The Tab key stops at the buttons of the line of the caret alone.
  stop() {
    const number = this.lineOfCaret();
    for (const one of this.drawn.querySelectorAll('button')) one.tabIndex = -1;
    for (const one of this.drawn.children[number - 1]?.querySelectorAll('button') ?? []) one.tabIndex = 0;
  }

  // Has what the line of the caret answered read out, where the caret has come to another line.
  speak() {
    const number = document.activeElement === this.text ? this.lineOfCaret() : 0, state = this.stateOf(number);
    if (number === this.spoken) return;
    this.spoken = number;
    this.stop();
    this.on.speak(number && state ? `line ${number}: ${[SPOKEN[state] ?? state, this.said(number)].filter(Boolean).join(', ')}` : '');
  }

  colored(line, wrong) {
    const comment = line.indexOf('#'), code = comment < 0 ? line : line.slice(0, comment);
    let place = 0;
    const words = code.split(/(\s+)/).map((word) => {
      const kind = !word.trim() || /^@/.test(word) ? '' : place++ === 0 ? (word === 'expect' ? 'expect' : 'verb') : this.names.has(word) ? 'name' : /^\d[\d./]*$/.test(word) ? 'number' : '';
      return span(`${kind}${word === wrong ? ' wrong' : ''}`.trim(), word);
    });
    return comment < 0 ? words : [...words, span('comment', line.slice(comment))];
  }
}

const span = (className, textContent) => className ? Object.assign(document.createElement('span'), { className, textContent }) : textContent;

// What an answer says besides that it is one.
function found(answer) {
  if (!answer) return '';
  if (answer.found) return `found ${answer.found}`;
  if (answer.code) return `${answer.code} ${answer.name} ${answer.at}${answer.hint ? ` (${answer.hint})` : ''}`;
  return '';
}
