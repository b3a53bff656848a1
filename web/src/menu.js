// The menu of an element: what its card offers, where the element is. It opens by the second button of a mouse, by the Menu key,
// by Shift and F10, and by Enter in the picture.

// Opens the menu of an element at a place of the window. Returns whether there is one.
function openMenu(id, x, y) {
  if (!isElement(id)) return false;
  const menu = $('menu'), from = menu.matches(':popover-open') ? state.menuFrom : document.activeElement;
  select(id);
  const offers = offersOf(id), titled = `${titleOf(id)}${conditionOf(id) ? ` (${conditionOf(id)})` : ''}`;
  const items = offers.map((offer) => offerButton(offer, { role: 'menuitem', tabindex: -1, onclick: () => {
    closeMenu();
    doOffer(offer);
  } }));
  menu.setAttribute('aria-label', titled);
  menu.replaceChildren(element('b', { 'aria-hidden': 'true' }, titled), ...items, element('p', { 'aria-hidden': 'true' }, state.shown ? `Lines go in after line ${state.shown}` : 'Lines go in at the beginning'));
  menu.showPopover();
  putMenu(menu, x, y);
  state.menuFrom = from;
  items[0]?.focus();
  forecast(offers, menu);
  return true;
}

// Puts the menu at a place, inside the window.
function putMenu(menu, x, y) {
  const { offsetWidth, offsetHeight } = menu, within = (place, size, room) => Math.max(6, Math.min(room - size - 8, place));
  menu.style.left = `${within(x + 2, offsetWidth, innerWidth)}px`;
  menu.style.top = `${within(y + 2, offsetHeight, innerHeight)}px`;
}

// Closes the menu, and what had the keys has them again.
function closeMenu() {
  if (!$('menu').matches(':popover-open')) return;
  $('menu').hidePopover();
  state.menuFrom?.focus?.({ preventScroll: true });
}

// The element that keys are about: of a row, or what is selected.
const elementAt = (target) => target.closest?.('[data-element]')?.dataset.element ?? state.selected;

// Opens the menu of what is selected, or of the row that has the keys, where it is drawn or listed.
function openMenuByKey(target) {
  const id = elementAt(target), listed = target.closest?.('[data-element]')?.getBoundingClientRect();
  const [x, y] = (listed ? [listed.left + 40, listed.bottom] : isElement(id) && picture.placeOf(id)) || [innerWidth / 2, innerHeight / 2];
  return openMenu(id, x, y);
}

// Whether an event that asks for a menu is of a pointer: those of keys have no place, and come after the key.
const isPointed = ({ button: which, ctrlKey, pointerType }) => which === 2 || ctrlKey || pointerType === 'touch';
const isMenuKey = ({ key, shiftKey }) => key === 'ContextMenu' || (key === 'F10' && shiftKey);

// Arrows go from action to action, a letter does the action of its key, and Escape and Tab close the menu.
function onMenuKey(event) {
  const items = [...$('menu').querySelectorAll('[role=menuitem]')], at = items.indexOf(document.activeElement), { key } = event;
  const by = { ArrowDown: 1, ArrowUp: -1 }[key], end = { Home: 0, End: items.length - 1 }[key];
  const own = [key, key.toLowerCase()].map((letter) => items.find((item) => item.dataset.key === letter)).find(Boolean);
  if (by) items[(at + by + items.length) % items.length]?.focus();
  else if (end !== undefined) items[end]?.focus();
  else if (key === 'Escape' || key === 'Tab') closeMenu();
  else if (own && !event.ctrlKey && !event.metaKey) own.click();
  else if (!isMenuKey(event)) return;
  event.preventDefault();
  event.stopPropagation();
}

function listenToMenu() {
  const menu = $('menu'), isOutside = ({ target }) => !menu.contains(target);
  menu.addEventListener('keydown', onMenuKey);
  menu.addEventListener('contextmenu', (event) => event.preventDefault());
  document.addEventListener('pointerdown', (event) => { if (isOutside(event) && menu.matches(':popover-open')) menu.hidePopover(); }, { capture: true });
  addEventListener('blur', closeMenu);
  addEventListener('resize', closeMenu);
  $('pane').addEventListener('contextmenu', (event) => {
    const listed = event.target.closest('[data-element]');
    if (listed && isPointed(event) && openMenu(listed.dataset.element, event.clientX, event.clientY)) event.preventDefault();
  });
}
