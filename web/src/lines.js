// A text field in which each line is a block, so that there is room between two lines for what the upper one answered. Others
// use it as they use a textarea: by its value and its selection. It keeps what was typed before, for undo.

// How long typing goes on as one step of undo.
const TYPING = 900;
const MOST_STEPS_BACK = 500;

// What a command of deletion removes of a text: from where to where. What is selected goes, else what lies before or after the
// caret: a character, a word, or the rest of the line.
function deletedBy(command, text, [start, end]) {
  if (start !== end) return [start, end];
  const isBack = /Backward$/.test(command) || command === 'deleteEntireSoftLine', near = isBack ? text.slice(0, start) : text.slice(end);
  const [back, on] = /Word/.test(command) ? [/(\n|([\p{L}\p{N}_]+|[^\p{L}\p{N}_\s]+|)[^\S\n]*)$/u, /^(\n|[^\S\n]*([\p{L}\p{N}_]+|[^\p{L}\p{N}_\s]+|))/u]
    : /Line/.test(command) ? [/(\n|[^\n]*)$/, /^(\n|[^\n]*)/] : [/(.|\n|)$/u, /^(.|\n|)/u];
  const count = (isBack ? back : on).exec(near)[0].length;
  return isBack ? [start - count, start] : [end, end + count];
}

// The steps that a text has taken. Typing that goes on is one of them.
class TextHistory {
  constructor(value = '') {
    this.clear(value);
  }

  clear(value) {
    this.steps = [{ value, caret: 0 }];
    this.at = 0;
    this.typed = 0;
  }

  // Takes note of a text and its caret; typing within a short time of other typing beside it changes the last step.
  note(value, caret, isTyping, now) {
    const last = this.steps[this.at];
    if (last.value === value) return;
    const goesOn = isTyping && this.at > 0 && now - this.typed < TYPING && Math.abs(caret - last.caret) <= 1;
    this.steps.length = this.at + (goesOn ? 0 : 1);
    this.steps.push({ value, caret });
    if (this.steps.length > MOST_STEPS_BACK) this.steps.shift();
    this.at = this.steps.length - 1;
    this.typed = isTyping ? now : 0;
  }

  // The step before the present one, or the one after it; null where there is none.
  go(by) {
    const step = this.steps[this.at + by] ?? null;
    if (step) this.at += by;
    this.typed = 0;
    return step;
  }
}

class LineField {
  // Makes a text field of an element that can be edited.
  constructor(root) {
    Object.assign(this, { root, history: new TextHistory(), range: [0, 0], isTyping: false });
    this.write(['']);
    const value = { get: () => this.lines().join('\n'), set: (text) => this.put(text) };
    const [selectionStart, selectionEnd] = [0, 1].map((k) => ({ get: () => this.selection()[k] }));
    Object.defineProperties(root, { value, selectionStart, selectionEnd });
    root.setSelectionRange = (start, end) => this.select(start, end);
    root.replaceText = (start, end, text) => this.replace(start, end, text);
    this.listen();
  }

  listen() {
    const { root } = this;
    root.addEventListener('beforeinput', (event) => this.onInput(event));
    root.addEventListener('input', ({ isComposing }) => this.read(isComposing));
    root.addEventListener('compositionend', () => this.read());
    root.addEventListener('focus', () => document.getSelection().setBaseAndExtent(...this.placeOf(this.range[0]), ...this.placeOf(this.range[1])));
    root.addEventListener('dragstart', (event) => event.preventDefault());
    for (const name of ['copy', 'cut']) root.addEventListener(name, (event) => this.onCopy(event));
    document.addEventListener('selectionchange', () => { if (document.activeElement === root) this.range = this.selection(); });
  }

  // ---- the text

  lines() {
    return [...this.root.children].map((line) => line.textContent);
  }

  // Puts another text in the place of all.
  put(text) {
    this.write(text.replace(/\r\n?/g, '\n').split('\n'));
    this.range = [0, 0];
  }

  // Writes lines into their blocks, where they differ.
  write(lines) {
    const { root } = this;
    while (root.childNodes.length > lines.length) root.lastChild.remove();
    lines.forEach((line, k) => {
      const block = root.childNodes[k] ?? root.appendChild(document.createElement('div')), isPlain = block.childNodes.length === 1 && (line ? block.firstChild.nodeType === 3 : block.firstChild.nodeName === 'BR');
      if (!isPlain || block.textContent !== line) block.replaceChildren(line || document.createElement('br'));
    });
  }

  // Reads what the browser wrote by itself, as a composition does, and brings it into blocks again.
  read(isComposing = false) {
    const { root } = this, isPlain = [...root.childNodes].every((block) => block.nodeName === 'DIV' && block.childNodes.length === 1 && !block.firstChild.firstChild && !block.textContent.includes('\n'));
    if (!isPlain && !isComposing) {
      const [start, end] = this.selection();
      this.write([...root.childNodes].flatMap((block) => block.nodeName === 'BR' ? [''] : block.textContent.split('\n')));
      if (!root.childNodes.length) this.write(['']);
      this.select(start, end);
    }
    this.range = this.selection();
    this.history.note(root.value, this.range[1], this.isTyping || isComposing, performance.now());
    this.isTyping = false;
  }

  // Writes a text in the place of another one, as if it was typed.
  replace(start, end, text, isTyping = false) {
    const { value } = this.root, added = text.replace(/\r\n?/g, '\n').replaceAll('\u00a0', ' ');
    this.write(`${value.slice(0, start)}${added}${value.slice(end)}`.split('\n'));
    this.select(start + added.length, start + added.length);
    this.isTyping = isTyping;
    this.root.dispatchEvent(new InputEvent('input', { bubbles: true }));
  }

  // Takes a step back, or again.
  step(by) {
    const step = this.history.go(by);
    if (!step) return;
    this.write(step.value.split('\n'));
    this.select(step.caret, step.caret);
    this.root.dispatchEvent(new InputEvent('input', { bubbles: true }));
  }

  // What is typed, pasted and deleted is written here and not by the browser, but for what is still being composed.
  onInput(event) {
    const { inputType, data, dataTransfer } = event;
    if (event.isComposing || inputType === 'insertCompositionText') return;
    event.preventDefault();
    const [start, end] = this.targetOf(event), isTyping = inputType === 'insertText' || inputType === 'deleteContentBackward';
    if (inputType === 'historyUndo' || inputType === 'historyRedo') this.step(inputType === 'historyUndo' ? -1 : 1);
    else if (inputType === 'insertParagraph' || inputType === 'insertLineBreak') this.replace(start, end, '\n');
    else if (inputType.startsWith('insert')) this.replace(start, end, data ?? dataTransfer?.getData('text/plain') ?? '', isTyping);
    else if (inputType.startsWith('delete')) this.replace(...deletedBy(inputType, this.root.value, [start, end]), '', isTyping);
  }

  // What an event of the browser is about: what is dropped or replaced has its own place.
  targetOf(event) {
    const [given] = /^insert(FromDrop|ReplacementText)$/.test(event.inputType) ? event.getTargetRanges() : [];
    return given ? [this.offsetOf(given.startContainer, given.startOffset), this.offsetOf(given.endContainer, given.endOffset)] : this.selection();
  }

  onCopy(event) {
    const [start, end] = this.selection();
    event.preventDefault();
    if (start === end) return;
    event.clipboardData.setData('text/plain', this.root.value.slice(start, end));
    if (event.type === 'cut') this.replace(start, end, '');
  }

  // ---- the selection

  // Where a place of the document is in the text.
  offsetOf(node, offset) {
    const { root } = this, blocks = [...root.childNodes];
    const startOf = (k) => blocks.slice(0, k).reduce((sum, block) => sum + block.textContent.length + 1, 0);
    if (node === root) return Math.min(startOf(offset), root.value.length);
    const k = blocks.findIndex((block) => block.contains(node));
    return startOf(k) + (node.nodeType === 3 ? offset : offset ? blocks[k].textContent.length : 0);
  }

  // Where an offset of the text is in the document.
  placeOf(offset) {
    const blocks = [...this.root.childNodes];
    let left = offset, k = 0;
    while (k < blocks.length - 1 && left > blocks[k].textContent.length) left -= blocks[k++].textContent.length + 1;
    const { firstChild } = blocks[k];
    return firstChild?.nodeType === 3 ? [firstChild, Math.min(left, firstChild.length)] : [blocks[k], 0];
  }

  // What is selected: by the document while the field has the keys, else what was selected at last.
  selection() {
    const { anchorNode, focusNode, anchorOffset, focusOffset } = document.getSelection(), { root } = this;
    if (document.activeElement !== root || !root.contains(anchorNode) || !root.contains(focusNode)) return this.range;
    const ends = [this.offsetOf(anchorNode, anchorOffset), this.offsetOf(focusNode, focusOffset)];
    return ends.sort((one, other) => one - other);
  }

  select(start, end) {
    const most = this.root.value.length;
    this.range = [Math.min(start, most), Math.min(end, most)];
    if (document.activeElement !== this.root) return;
    document.getSelection().setBaseAndExtent(...this.placeOf(this.range[0]), ...this.placeOf(this.range[1]));
    this.showCaret();
  }

  // The rectangle of the caret in the window.
  caretRect() {
    const range = document.createRange(), [node, offset] = this.placeOf(this.selection()[1]);
    range.setStart(node, offset);
    return node.nodeType === 3 ? range.getBoundingClientRect() : node.getBoundingClientRect();
  }

  // Scrolls so that the caret is to be seen.
  showCaret() {
    const room = this.root.closest('.scroller')?.getBoundingClientRect(), { left, top } = this.caretRect();
    if (!room) return;
    const by = (place, from, to) => place < from ? place - from : place > to ? place - to : 0;
    this.root.closest('.scroller').scrollBy(by(left, room.left + 70, room.right - 20), by(top, room.top + 6, room.bottom - 30));
  }
}
