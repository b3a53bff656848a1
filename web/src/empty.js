// What is shown before a database is open: networks to try, and how to get a dump.

// The small picture of a network: its links and its nodes.
async function drawSample(canvas, { dump, names }) {
  const given = { dump: fromBase64(dump), names: bytes(names), study: bytes('routers\nlinks\nnetworks\n'), json: true, keepGoing: true };
  const [routers, links, networks] = documentsOf(await calculator.study(given));
  const { nodes, edges } = topology({ routers, links, networks }, {});
  const { places } = await calculator.ask('place', placing({ nodes, edges }));
  const small = new Picture(canvas, { select: () => {} });
  small.layers = { costs: false, areas: true };
  small.margins = [26, 22];
  small.put([...nodes.keys()], places);
  small.show({ nodes, edges });
  small.fit();
}

// The networks that come with the page, each with a small picture.
function showSamples() {
  $('samples').replaceChildren(...parts.samples.map(({ title, about, dump, names, study, name }) => element('button', {
    type: 'button', onclick: () => open(fromBase64(dump), name, { names: bytes(names), study, studyName: name.replace(/\.oswp$/, '.study') }),
  }, element('canvas', { 'aria-hidden': 'true' }), element('span', {}, element('b', {}, title), element('span', {}, about)))));
  parts.samples.forEach((sample, k) => drawSample($('samples').querySelectorAll('canvas')[k], sample).catch(() => {}));
}

// How a dump is made of what a network gives: by docs/CAPTURE.md.
const RECIPES = {
  FRR: ['for type in router network summary asbr-summary external', 'do vtysh -c "show ip ospf database $type"; done > router.txt', 'ospf-capture --out net.oswp router.txt'],
  SNMP: ['# of an area border router of each area', 'snmpbulkwalk -v2c -c COMMUNITY -On -Ox ROUTER 1.3.6.1.2.1.14 > router.walk', 'ospf-capture --out net.oswp router.walk'],
  Capture: ['# on a link of each area, while a router comes up on it', 'tcpdump -i INTERFACE -w link.pcap proto ospf', 'ospf-capture --out net.oswp link.pcap'],
};

// Shows one of the ways to a dump.
function showRecipe(kind) {
  const ways = Object.keys(RECIPES).map((way) => [way, way]), lines = element('pre', {}, RECIPES[kind].join('\n'));
  const choose = (way) => {
    showRecipe(way);
    $('recipe').querySelector('[aria-pressed=true]').focus();
  };
  $('recipe').replaceChildren(element('div', { class: 'ways' }, switched('What the network gives', ways, kind, choose, 'recipe'), button('Copy', () => copyText(lines), { 'aria-label': 'Copy the lines' })), lines);
}

// Copies the text of an element.
function copyText(lines) {
  document.getSelection().selectAllChildren(lines);
  const isCopied = document.execCommand('copy');
  document.getSelection().removeAllRanges();
  toast(isCopied ? 'Copied' : 'The browser does not let the page copy');
}
