// What is suggested while a line is typed, in a list at the caret. Arrow keys choose, Tab takes, Enter takes what was chosen,
// and Escape closes the list.

const MOST_SUGGESTED = 9;
let suggestionLists = 0;

class Suggestions {
  // `offer` gives, for the text before the caret, what is suggested: the part of the text that is replaced, and options, each
  // a word with what it is; an option with `act` is done in place of being written. `corner` gives where the caret is.
  constructor(field, { offer, corner = null, isEager = false, shown = () => {} }) {
    Object.assign(this, { field, offer, corner, isEager, shown, options: [], at: -1, part: '' });
    const id = `suggestions-${++suggestionLists}`;
    this.list = element('ul', { id, class: 'suggestions', role: 'listbox', 'aria-label': 'Suggestions', hidden: true });
    document.body.append(this.list);
    for (const [name, value] of Object.entries({ 'aria-autocomplete': 'list', 'aria-controls': id, 'aria-haspopup': 'listbox' })) field.setAttribute(name, value);
    field.addEventListener('input', () => this.open());
    field.addEventListener('blur', () => this.close());
    document.addEventListener('scroll', () => { if (this.isOpen) this.put(); }, { capture: true, passive: true });
    field.addEventListener('keydown', (event) => this.onKey(event), { capture: true });
    this.list.addEventListener('pointerdown', (event) => {
      event.preventDefault();
      const option = event.target.closest('[role=option]');
      if (option) this.take([...this.list.children].indexOf(option));
    });
  }

  get isOpen() {
    return !this.list.hidden;
  }

  close() {
    this.list.hidden = true;
    this.field.removeAttribute('aria-activedescendant');
  }

  // Shows what is suggested; where nothing was typed yet only if it is asked for.
  open(isAsked = false) {
    const { field } = this, caret = field.selectionStart;
    const found = field.selectionEnd === caret ? this.offer(field.value.slice(0, caret), field.value.slice(caret), isAsked) : null;
    this.options = (found?.options ?? []).slice(0, MOST_SUGGESTED);
    this.part = found?.part ?? '';
    const isWritten = this.options.length === 1 && this.options[0].word === this.part && !this.options[0].act;
    if (!this.options.length || isWritten || document.activeElement !== field) {
      this.close();
      return;
    }
    this.list.replaceChildren(...this.options.map(({ word, about }, k) => element('li', { id: `${this.list.id}-${k}`, role: 'option' },
      element('b', {}, word), element('span', {}, about ?? ''))));
    this.list.hidden = false;
    this.put();
    this.choose(this.isEager ? 0 : -1);
    this.shown(this.options, [...this.list.querySelectorAll('span')]);
  }

  // Puts the list below the caret, or above it where there is no room.
  put() {
    const field = this.field.getBoundingClientRect(), [x, y, height] = this.corner?.() ?? [field.left, field.top, field.height];
    const { offsetWidth, offsetHeight } = this.list, below = y + height + 3;
    this.list.style.left = `${Math.max(6, Math.min(innerWidth - offsetWidth - 6, x))}px`;
    this.list.style.top = `${below + offsetHeight > innerHeight - 4 ? y - offsetHeight - 3 : below}px`;
  }

  choose(at) {
    this.at = at;
    [...this.list.children].forEach((option, k) => option.setAttribute('aria-selected', String(k === at)));
    if (at >= 0) this.field.setAttribute('aria-activedescendant', `${this.list.id}-${at}`);
    else this.field.removeAttribute('aria-activedescendant');
  }

  onKey(event) {
    const by = { ArrowDown: 1, ArrowUp: -1 }[event.key], isPlain = !event.ctrlKey && !event.metaKey && !event.altKey;
    if (event.ctrlKey && event.key === ' ') this.open(true);
    else if (!this.isOpen || !isPlain) return;
    else if (by) this.choose((this.at + by + this.options.length + (this.at < 0 && by < 0 ? 1 : 0)) % this.options.length);
    else if (event.key === 'Tab' && !event.shiftKey) this.take(Math.max(0, this.at));
    else if (event.key === 'Enter' && this.at >= 0) this.take(this.at);
    else if (event.key === 'Escape') this.close();
    else return;
    event.preventDefault();
    event.stopImmediatePropagation();
  }

  // Writes an option in the place of the part of the text that it completes, or does what it is for.
  take(at) {
    const option = this.options[at], { field } = this;
    this.close();
    if (option.act) {
      field.value = '';
      option.act();
      return;
    }
    field.focus();
    const end = field.selectionStart, isSpaced = /^\s/.test(field.value.slice(end)), word = `${option.word}${isSpaced ? '' : ' '}`;
    if (field.replaceText) {
      field.replaceText(end - this.part.length, end, word);
      return;
    }
    field.setSelectionRange(end - this.part.length, end);
    document.execCommand('insertText', false, word);
  }
}
