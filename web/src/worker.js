// The worker: it carries out studies and places the nodes of the picture, so that the page never waits.

let module = null;

const TASKS = {
  // The module, as gzip compressed it.
  async open({ compressed }) {
    const stream = new Blob([compressed]).stream().pipeThrough(new DecompressionStream('gzip'));
    module = await WebAssembly.compile(await new Response(stream).arrayBuffer());
    return { readsCaptures: readsCaptures(module) };
  },
  study(given) {
    return runStudy(module, given);
  },
  capture(given) {
    return runCapture(module, given);
  },
  // Places for nodes: near those that they have links to, and apart from all others.
  place({ nodes, links }) {
    const at = nodes.map((node, k) => ({ ...node, index: k }));
    const close = links.map(([source, target, length]) => ({ source, target, length }));
    const simulation = d3.forceSimulation(at)
      .force('charge', d3.forceManyBody().strength(-320).distanceMax(900))
      .force('link', d3.forceLink(close).distance((link) => link.length).strength(0.7))
      .force('x', d3.forceX().strength(0.035))
      .force('y', d3.forceY().strength(0.05))
      .force('apart', d3.forceCollide(30))
      .stop();
    const steps = at.length > 400 ? 120 : 300;
    for (let step = 0; step < steps; step++) simulation.tick();
    return { places: at.map(({ x, y }) => [x, y]) };
  },
};

self.onmessage = async ({ data: { id, task, given } }) => {
  try {
    self.postMessage({ id, answer: await TASKS[task](given) });
  } catch (error) {
    self.postMessage({ id, error: String(error?.message ?? error) });
  }
};
