// The picture of the topology, on a canvas: areas whisper, changes speak.

const RADIUS = 15;
const BACKBONE = '0.0.0.0';
const AREA_COUNT = 8;
// With more nodes, one drawing is moved while the view moves, and the next is made once it rests.
const MOST_MOVING = 300;
const REST = 140;
// How much of the picture is drawn beyond each side of what is to be seen, as a share of it.
const MARGIN = 0.3;

// How links are drawn, by what became of them: never by a color alone, but each with dashes of its own.
const LINK_STROKES = {
  plain: { color: 'link', width: 1.6, dash: [] }, failed: { color: 'down', width: 2.2, dash: [5, 4] }, oneWay: { color: 'down', width: 2.2, dash: [1.5, 4] },
  changed: { color: 'dearer', width: 3.2, dash: [14, 3, 3, 3] }, isNew: { color: 'better', width: 3.2, dash: [10, 4] },
};
// How a link is drawn in Sweep, by what its failure would do; where routes are lost the width says how many.
const HEAT_STROKES = { lost: { color: 'lost', width: 3.4, dash: [] }, dearer: { color: 'dearer', width: 3.4, dash: [11, 4] }, moved: { color: 'moved', width: 3, dash: [3, 4] } };
// The parts of the ring of a router, by what became of its routes.
const RING_STROKES = { lost: { color: 'lost', width: 5, dash: [] }, dearer: { color: 'dearer', width: 3, dash: [] }, moved: { color: 'moved', width: 3, dash: [4, 2] }, better: { color: 'better', width: 3, dash: [1.5, 2] } };
// The path as loaded, and after the shown line.
const PATH_STROKES = { before: { color: 'before', width: 3.4, dash: [6, 4] }, now: { color: 'now', width: 3.4, dash: [] } };
// The rims of areas, the backbone first: areas of one color have names that differ.
const AREA_DASHES = [[], [9, 3], [2, 3], [9, 3, 2, 3], [5, 5], [14, 4], [2, 6], [9, 3, 2, 3, 2, 3], [5, 2, 5, 6]];

class Picture {
  constructor(canvas, on) {
    this.canvas = canvas;
    this.on = on;
    this.view = { x: 0, y: 0, scale: 1 };
    this.nodes = new Map();
    this.edges = new Map();
    this.places = new Map();
    this.selected = null;
    this.hovered = null;
    this.paths = { before: [], now: [] };
    this.ends = [];
    this.impact = new Map();
    this.mode = 'impact';
    this.layers = { costs: true, areas: true };
    this.heat = new Map();
    this.margins = [150, 140];
    this.drawn = { count: 0, time: 0 };
    this.listen();
    new ResizeObserver(() => this.resize()).observe(canvas);
    this.resize();
  }

  // ---- what is shown

  show({ nodes, edges }) {
    this.nodes = nodes;
    this.edges = edges;
    const areas = [...new Set([...nodes.values()].flatMap((node) => node.areas))].sort();
    this.areaColors = new Map(areas.map((area, k) => [area, area === '0.0.0.0' ? 0 : 1 + (k - (areas[0] === '0.0.0.0' ? 1 : 0)) % AREA_COUNT]));
    this.draw();
  }

  put(ids, places) {
    this.places = new Map(ids.map((id, k) => [id, places[k]]));
    this.fit();
  }

  fit() {
    const points = [...this.places.values()];
    if (!points.length) return;
    const [left, right] = [Math.min(...points.map(([x]) => x)), Math.max(...points.map(([x]) => x))];
    const [top, bottom] = [Math.min(...points.map(([, y]) => y)), Math.max(...points.map(([, y]) => y))];
    const scale = Math.min(2, (this.width - this.margins[0]) / Math.max(1, right - left), (this.height - this.margins[1]) / Math.max(1, bottom - top));
    this.view = { scale, x: this.width / 2 - scale * (left + right) / 2, y: this.height / 2 - scale * (top + bottom) / 2 + 4 };
    this.draw();
  }

  zoom(by, x = this.width / 2, y = this.height / 2) {
    const { view } = this;
    const scale = Math.min(6, Math.max(0.02, view.scale * by));
    this.view = { scale, x: x - (x - view.x) * scale / view.scale, y: y - (y - view.y) * scale / view.scale };
    this.move();
  }

  pan(dx, dy) {
    this.view = { ...this.view, x: this.view.x + dx, y: this.view.y + dy };
    this.move();
  }

  // The view has moved: a large picture is drawn once it rests.
  move() {
    if (this.nodes.size > MOST_MOVING && this.still) {
      this.isMoving = true;
      clearTimeout(this.rest);
      this.rest = setTimeout(() => {
        this.isMoving = false;
        this.draw();
      }, REST);
    }
    this.draw();
  }

  // Brings a node or an edge to the middle, if it is not to be seen.
  reveal(id) {
    const at = this.places.get(this.edges.get(id)?.a ?? id);
    if (!at) return;
    const [x, y] = this.onScreen(at);
    if (x < 30 || y < 30 || x > this.width - 30 || y > this.height - 30) {
      this.view.x += this.width / 2 - x;
      this.view.y += this.height / 2 - y;
    }
    this.draw();
  }

  // The place of a node, or of the middle of an edge, in the window; null where it is not drawn.
  placeOf(id) {
    const edge = this.edges.get(id), at = this.places.get(id), { left, top } = this.canvas.getBoundingClientRect();
    const place = edge ? this.endsOf(edge) && this.middle(edge) : at && this.onScreen(at);
    return place ? [left + place[0], top + place[1]] : null;
  }

  onScreen([x, y]) {
    return [this.view.x + this.view.scale * x, this.view.y + this.view.scale * y];
  }

  // ---- hands

  // Marks what is under the pointer, or what a row is about.
  hover(key) {
    if (key === this.hovered) return;
    this.hovered = key;
    this.draw();
  }

  listen() {
    this.listenToPointer();
    const { canvas } = this;
    canvas.addEventListener('pointerleave', () => this.hover(null));
    canvas.addEventListener('contextmenu', (event) => {
      const id = this.at(event.offsetX, event.offsetY);
      if (id && isPointed(event) && this.on.menu?.(id, event.clientX, event.clientY)) event.preventDefault();
    });
    canvas.addEventListener('keydown', (event) => {
      const by = { ArrowLeft: [60, 0], ArrowRight: [-60, 0], ArrowUp: [0, 60], ArrowDown: [0, -60] }[event.key];
      if (!by) return;
      event.preventDefault();
      this.pan(...by);
    });
    canvas.addEventListener('wheel', (event) => {
      event.preventDefault();
      this.zoom(Math.exp(-event.deltaY / 400), event.offsetX, event.offsetY);
    }, { passive: false });
  }

  listenToPointer() {
    const { canvas } = this;
    let drag = null;
    canvas.addEventListener('pointerdown', (event) => {
      if (event.button) return;
      drag = { x: event.offsetX, y: event.offsetY, moved: false };
      canvas.setPointerCapture(event.pointerId);
    });
    canvas.addEventListener('pointermove', (event) => {
      if (!drag) {
        this.hover(this.at(event.offsetX, event.offsetY));
        canvas.style.cursor = this.hovered ? 'pointer' : 'grab';
        return;
      }
      const [dx, dy] = [event.offsetX - drag.x, event.offsetY - drag.y];
      if (!drag.moved && Math.hypot(dx, dy) < 4) return;
      Object.assign(drag, { x: event.offsetX, y: event.offsetY, moved: true });
      this.pan(dx, dy);
    });
    canvas.addEventListener('pointerup', (event) => {
      if (drag && !drag.moved) this.on.select(this.at(event.offsetX, event.offsetY));
      drag = null;
    });
  }

  // The node or the edge at a place of the screen.
  at(x, y) {
    let best = null, least = Math.max(8, RADIUS * Math.min(1, this.view.scale) + 4);
    for (const id of this.nodes.keys()) {
      const place = this.places.get(id);
      if (!place) continue;
      const [px, py] = this.onScreen(place);
      const distance = Math.hypot(px - x, py - y);
      if (distance < least) [best, least] = [id, distance];
    }
    if (best) return best;
    least = 7;
    for (const edge of this.edges.values()) {
      const ends = this.endsOf(edge);
      if (!ends) continue;
      const distance = distanceToSegment([x, y], ...ends);
      if (distance < least) [best, least] = [edge.key, distance];
    }
    return best;
  }

  // The two ends of an edge on the screen; parallel edges are apart.
  endsOf(edge) {
    const from = this.places.get(edge.a), to = this.places.get(edge.b);
    if (!from || !to) return null;
    const [x, y] = this.onScreen(from), [u, v] = this.onScreen(to);
    if (!edge.offset) return [[x, y], [u, v]];
    const length = Math.hypot(u - x, v - y) || 1, flip = edge.a < edge.b ? 1 : -1;
    const [ox, oy] = [-(v - y) / length * edge.offset * flip, (u - x) / length * edge.offset * flip];
    return [[x + ox, y + oy], [u + ox, v + oy]];
  }

  // ---- drawing

  resize() {
    const { clientWidth, clientHeight } = this.canvas;
    const ratio = window.devicePixelRatio || 1;
    [this.width, this.height] = [clientWidth, clientHeight];
    [this.canvas.width, this.canvas.height] = [clientWidth * ratio, clientHeight * ratio];
    this.ratio = ratio;
    this.draw();
  }

  draw() {
    if (this.waiting) return;
    this.waiting = true;
    requestAnimationFrame(() => {
      this.waiting = false;
      const begun = performance.now();
      this.drawNow();
      this.drawn.count++;
      this.drawn.time += performance.now() - begun;
    });
  }

  drawNow() {
    const context = this.canvas.getContext('2d');
    context.setTransform(this.ratio, 0, 0, this.ratio, 0, 0);
    context.clearRect(0, 0, this.width, this.height);
    if (this.isMoving) {
      const { view, canvas } = this.still, scale = this.view.scale / view.scale;
      const [x, y] = [this.view.x - scale * view.x, this.view.y - scale * view.y];
      context.drawImage(canvas, x, y, scale * canvas.width / this.ratio, scale * canvas.height / this.ratio);
      return;
    }
    if (this.nodes.size > MOST_MOVING) {
      this.still = this.drawStill();
      const { view, canvas } = this.still;
      context.drawImage(canvas, this.view.x - view.x, this.view.y - view.y, canvas.width / this.ratio, canvas.height / this.ratio);
      return;
    }
    this.drawIn(context);
  }

  // A drawing of what is to be seen and of what is near it, and the view of it.
  drawStill() {
    const { view, width, height } = this;
    const canvas = this.still?.canvas ?? document.createElement('canvas');
    [this.width, this.height] = [width * (1 + 2 * MARGIN), height * (1 + 2 * MARGIN)];
    [canvas.width, canvas.height] = [this.width * this.ratio, this.height * this.ratio];
    this.view = { ...view, x: view.x + width * MARGIN, y: view.y + height * MARGIN };
    const context = canvas.getContext('2d');
    context.setTransform(this.ratio, 0, 0, this.ratio, 0, 0);
    this.drawIn(context);
    const still = { canvas, view: this.view };
    Object.assign(this, { view, width, height });
    return still;
  }

  // Everything, in an order in which what matters is on top.
  drawIn(context) {
    if (this.colors?.theme !== document.documentElement.dataset.theme) {
      const style = getComputedStyle(document.documentElement);
      this.colors = colorsOf((name) => style.getPropertyValue(`--${name}`).trim());
    }
    const usual = this.view.scale * 90;
    this.taken = this.nodes.size <= MOST_MOVING ? this.rings(this.radius(usual) * 1.3 + 4) : [];
    if (this.layers.areas) this.drawAreas(context);
    this.drawEdges(context, usual);
    this.drawPaths(context);
    if (this.layers.costs && usual > 52) {
      const seen = [...this.edges.values()].filter((edge) => this.isSeen(edge));
      for (const edge of [...seen.filter(edgeChanged), ...seen.filter((edge) => !edgeChanged(edge))]) this.drawCosts(context, edge);
    }
    this.drawNodes(context, usual);
    if (usual > 26) this.drawNames(context, usual);
    if (usual >= 17) this.drawEnds(context, usual);
  }

  radius(usual) {
    return usual < 17 ? (this.width < 200 ? 2 : 3.5) : Math.max(6, RADIUS * Math.min(1.15, this.view.scale));
  }

  // The rectangles of nodes with their rings.
  rings(radius) {
    return [...this.nodes.values()].filter(({ id }) => this.places.has(id)).map(({ id, kind }) => {
      const [x, y] = this.onScreen(this.places.get(id)), high = kind === 'network' ? radius * 0.4 : radius;
      return [x - radius, y - high, x + radius, y + high];
    });
  }

  // Whether a rectangle is free of what was written before; then it is taken.
  takes(x, y, width, height) {
    const one = [x - width / 2, y - height / 2, x + width / 2, y + height / 2];
    if (this.taken.some((other) => one[0] < other[2] && one[2] > other[0] && one[1] < other[3] && one[3] > other[1])) return false;
    this.taken.push(one);
    return true;
  }

  // A hull around the nodes of each area, with its name; border routers lie at its rim.
  drawAreas(context) {
    const radius = this.radius(this.view.scale * 90), turns = this.nodes.size > MOST_MOVING ? 6 : 18;
    const wide = radius + (this.width < 200 ? 5 : 16);
    context.lineJoin = 'round';
    for (const [area, k] of this.areaColors ?? []) {
      const points = [];
      for (const node of this.nodes.values()) {
        const place = node.areas.includes(area) && this.places.get(node.id);
        if (!place) continue;
        const [x, y] = this.onScreen(place), far = area !== BACKBONE && node.areas.length > 1 ? radius * 0.6 : wide;
        for (let turn = 0; turn < turns; turn++) points.push([x + far * Math.cos(2 * turn * Math.PI / turns), y + far * Math.sin(2 * turn * Math.PI / turns)]);
      }
      if (!points.length) continue;
      const hull = hullOf(points);
      context.beginPath();
      hull.forEach((point, at) => context[at ? 'lineTo' : 'moveTo'](...point));
      context.closePath();
      context.fillStyle = context.strokeStyle = this.colors.areas[k];
      context.lineWidth = 1.2;
      context.globalAlpha = 0.09;
      context.fill();
      context.globalAlpha = 0.55;
      context.setLineDash(AREA_DASHES[k]);
      context.stroke();
      context.setLineDash([]);
      context.globalAlpha = 1;
      this.drawAreaName(context, area, hull);
    }
  }

  // The name of an area, at the top, the left, the right or below of its hull, where there is room, or in one of its corners.
  drawAreaName(context, area, hull) {
    if (this.width < 200) return;
    const label = area === BACKBONE ? 'backbone 0.0.0.0' : `area ${area}`;
    context.font = this.colors.areaFont;
    context.textAlign = 'center';
    context.textBaseline = 'middle';
    const half = context.measureText(label).width / 2 + 5, extreme = (of) => hull.reduce((best, point) => of(point) < of(best) ? point : best);
    const [top, right, left, low] = [([, y]) => y, ([x]) => -x, ([x]) => x, ([, y]) => -y].map(extreme);
    const offered = [[top[0], top[1] - 9], [right[0] + half, right[1]], [left[0] - half, left[1]], [low[0], low[1] + 9]];
    const inside = ([x, y]) => x > half && x < this.width - half && y > 44 && y < this.height - 34;
    const corners = [[1, 1], [-1, 1], [1, -1], [-1, -1]].map(([right, low]) => extreme(([x, y]) => -(right * x + low * y))).map(([x, y]) => [x + (x > this.width / 2 ? half : -half), y]);
    const found = [...offered, ...corners].find((place) => inside(place) && this.takes(...place, 2 * half, 14));
    if (!found) return;
    const [x, y] = found;
    context.lineWidth = 3;
    context.strokeStyle = this.colors.map;
    context.strokeText(label, x, y);
    context.fillText(label, x, y);
  }

  stateOf(edge) {
    return edgeFailed(edge) ? 'failed' : edge.isNew ? 'isNew' : edgeChanged(edge) ? 'changed' : edgeOneWay(edge) ? 'oneWay' : 'plain';
  }

  drawEdges(context, usual) {
    const groups = new Map(), hasPath = this.paths.before.length + this.paths.now.length > 0;
    for (const edge of this.edges.values()) {
      const state = this.stateOf(edge);
      if (!groups.has(state)) groups.set(state, []);
      groups.get(state).push(edge);
    }
    for (const [state, edges] of groups) {
      context.beginPath();
      for (const edge of edges) {
        const ends = this.endsOf(edge);
        if (ends) context.moveTo(...ends[0]), context.lineTo(...ends[1]);
      }
      this.stroke(context, LINK_STROKES[state], { alpha: state === 'plain' && hasPath ? 0.55 : 1, width: usual < 17 && state === 'plain' ? 1 : null });
    }
    if (this.mode === 'sweep') this.drawHeat(context, usual);
    for (const key of [this.hovered, this.selected]) this.drawMarked(context, key);
    for (const edge of groups.get('failed') ?? []) if (usual >= 17 && this.isSeen(edge)) this.drawCross(context, ...this.middle(edge), 7);
  }

  // Draws what was begun: in the color, the width and the dashes of a table.
  stroke(context, { color, width, dash }, { alpha = 1, width: other = null } = {}) {
    context.strokeStyle = this.colors[color];
    context.lineWidth = other ?? width;
    context.setLineDash(dash);
    context.globalAlpha = alpha;
    context.stroke();
    context.setLineDash([]);
    context.globalAlpha = 1;
  }

  // An edge that is selected or under the pointer.
  drawMarked(context, key) {
    const ends = this.edges.has(key) && this.endsOf(this.edges.get(key));
    if (!ends) return;
    context.beginPath();
    context.moveTo(...ends[0]), context.lineTo(...ends[1]);
    context.strokeStyle = key === this.selected ? this.colors.accent : this.colors.text;
    context.globalAlpha = key === this.selected ? 0.3 : 0.12;
    context.lineWidth = 11;
    context.lineCap = 'round';
    context.stroke();
    context.lineCap = 'butt';
    context.globalAlpha = 1;
  }

  // Each link as wide as its failure hurts, and a ring around each router and LAN.
  drawHeat(context, usual) {
    const most = Math.max(1, ...[...this.heat.values()].map(({ lost }) => lost)), radius = this.radius(usual) * 1.3 + 5;
    for (const [key, { lost, dearer, moved }] of this.heat) {
      const ends = this.edges.has(key) && this.endsOf(this.edges.get(key)), place = this.nodes.has(key) && this.places.get(key);
      if (!(ends || place) || !(lost || dearer || moved)) continue;
      context.beginPath();
      if (ends) context.moveTo(...ends[0]), context.lineTo(...ends[1]);
      else context.arc(...this.onScreen(place), radius, 0, 2 * Math.PI);
      this.stroke(context, HEAT_STROKES[lost ? 'lost' : dearer ? 'dearer' : 'moved'], { width: lost ? 3 + (ends ? 7 : 4) * Math.sqrt(lost / most) : null });
    }
  }

  drawCross(context, x, y, radius) {
    context.beginPath();
    context.arc(x, y, radius, 0, 2 * Math.PI);
    context.fillStyle = this.colors.map;
    context.fill();
    context.strokeStyle = this.colors.down;
    context.lineWidth = 1.2;
    context.stroke();
    const arm = radius * 0.48;
    context.beginPath();
    context.moveTo(x - arm, y - arm), context.lineTo(x + arm, y + arm);
    context.moveTo(x - arm, y + arm), context.lineTo(x + arm, y - arm);
    context.lineWidth = 2;
    context.stroke();
  }

  middle(edge) {
    const [[x, y], [u, v]] = this.endsOf(edge);
    return [(x + u) / 2, (y + v) / 2];
  }

  // Whether the middle of an edge is to be seen.
  isSeen(edge) {
    if (!this.endsOf(edge)) return false;
    const [x, y] = this.middle(edge);
    return x > -60 && y > -60 && x < this.width + 60 && y < this.height + 60;
  }

  // The costs of an edge, each near its end; one cost where both are equal. Those on a path stand beside its strokes.
  drawCosts(context, edge) {
    const [[x, y], [u, v]] = this.endsOf(edge), length = Math.hypot(u - x, v - y) || 1;
    const cost = (value) => value === 65535 ? 'max' : String(value);
    const text = ({ was, now }) => now === null ? '' : now === was ? cost(now) : `${cost(was)}→${cost(now)}`;
    const of = (router) => edge.ends.find((end) => end.router === router);
    const [one, other] = [of(edge.a), of(edge.b)];
    const near = Math.min(0.42, 42 / length);
    const labels = one && other && text(one) === text(other) ? [[text(one), 0.5]]
      : [[one && text(one), edge.kind === 'transit' ? 0.5 : near], [other && text(other), 1 - near]].filter(([label]) => label);
    const aside = this.isOnPath(edge) ? 15 : 0;
    context.font = this.colors.small;
    context.textAlign = 'center';
    context.textBaseline = 'middle';
    const placeAt = (t) => [x + (u - x) * t - (v - y) / length * aside, y + (v - y) * t + (u - x) / length * aside];
    for (const [label, t] of labels) {
      // What changed is written in any case, farther from its end where there is no room.
      const isSet = label.includes('→'), offered = isSet ? [t, t + (0.5 - t) / 2, 0.5] : [t];
      const found = offered.map(placeAt).find((place) => this.takes(...place, label.length * 6.4 + 4, 13)) ?? (isSet ? placeAt(t + (0.5 - t) / 2) : null);
      if (!label || !found) continue;
      const [px, py] = found;
      context.lineWidth = 4.5;
      context.lineJoin = 'round';
      context.strokeStyle = this.colors.map;
      context.strokeText(label, px, py);
      context.fillStyle = isSet ? this.colors.dearerText : this.colors.cost;
      context.fillText(label, px, py);
    }
  }

  isOnPath(edge) {
    return [...this.paths.before, ...this.paths.now].some(([from, to]) => (from === edge.a && to === edge.b) || (from === edge.b && to === edge.a));
  }

  // The path before, in dashes, and now, each with chevrons, on two sides of the links.
  drawPaths(context) {
    for (const [when, side] of [['before', -3.6], ['now', 3.6]]) {
      const stroke = this.colors[PATH_STROKES[when].color], { dash } = PATH_STROKES[when];
      for (const [from, to] of this.paths[when]) {
        const a = this.places.get(from), b = this.places.get(to);
        if (a && b) this.drawStep(context, this.onScreen(a), this.onScreen(b), { stroke, dash, side: from < to ? side : -side });
      }
    }
  }

  drawStep(context, [x, y], [u, v], { stroke, dash, side }) {
    const length = Math.hypot(u - x, v - y) || 1, [dx, dy] = [(u - x) / length, (v - y) / length];
    const [ox, oy] = [-dy * side, dx * side], cut = Math.min(19, length / 3);
    const start = [x + ox + dx * cut, y + oy + dy * cut], end = [u + ox - dx * cut, v + oy - dy * cut];
    const line = (width, color, pattern) => {
      context.beginPath();
      context.setLineDash(pattern);
      context.moveTo(...start), context.lineTo(...end);
      context.strokeStyle = color;
      context.lineWidth = width;
      context.stroke();
      context.setLineDash([]);
    };
    line(6.5, this.colors.map, []);
    line(3.4, stroke, dash);
    context.beginPath();
    context.moveTo(end[0] - dx * 9 - dy * 5, end[1] - dy * 9 + dx * 5);
    context.lineTo(end[0], end[1]);
    context.lineTo(end[0] - dx * 9 + dy * 5, end[1] - dy * 9 - dx * 5);
    context.lineWidth = 2.6;
    context.stroke();
  }

  drawNodes(context, usual) {
    const radius = this.radius(usual);
    this.longest = Math.max(...[...this.nodes.values()].filter((node) => node.kind === 'router').map((node) => node.label.length), 1);
    const nodes = [...this.nodes.values()];
    for (const node of [...nodes.filter((one) => !one.failed), ...nodes.filter((one) => one.failed)]) {
      const place = this.places.get(node.id);
      if (!place) continue;
      const [x, y] = this.onScreen(place);
      if (x < -40 || y < -40 || x > this.width + 40 || y > this.height + 40) continue;
      this.drawNode(context, node, x, y, radius, usual);
    }
  }

  drawNode(context, node, x, y, radius, usual) {
    const area = this.colors.areas[this.areaColors.get(node.areas.length > 1 ? BACKBONE : node.areas[0]) ?? 0];
    const isRouter = node.kind === 'router', counts = this.mode === 'impact' && isRouter && !node.failed && this.impact.get(node.id);
    const fill = (style, alpha) => {
      context.globalAlpha = alpha;
      context.fillStyle = style;
      context.fill();
      context.globalAlpha = 1;
    };
    context.beginPath();
    if (usual < 17 && counts) dot(context, worst(counts), x, y, radius * (1 + 0.8 * this.share(counts)));
    else outline(context, node, x, y, radius);
    if (usual < 17) {
      fill(node.failed ? this.colors.down : counts ? this.colors[worst(counts)] : area, 1);
    } else {
      fill(node.failed ? this.colors.map : this.colors.node, 1);
      if (!node.failed) fill(area, isRouter ? 0.13 : 0.45);
      context.strokeStyle = node.failed ? this.colors.down : node.drained ? this.colors.dearer : isRouter ? this.colors.nodeLine : area;
      context.lineWidth = node.drained ? 2 : 1.5;
      context.setLineDash(node.failed ? [3.5, 3] : []);
      context.stroke();
      context.setLineDash([]);
      if (node.drained) this.hatch(context, node, x, y, radius);
      if (node.flag) this.drawFlag(context, node.flag, x - radius * 0.9, y - radius * 0.7);
      if (node.failed) this.drawCross(context, x + radius * 0.95, y - radius * 0.95, 6.4);
      if (counts) this.drawImpact(context, counts, x, y, radius * 1.3 + 3);
      if (counts && counts.lost) this.drawBadge(context, String(counts.lost), x + radius * 1.25, y - radius * 1.25, this.colors.lost);
    }
    if (node.id === this.selected || node.id === this.hovered) {
      context.beginPath();
      context.arc(x, y, radius * 1.3 + 8, 0, 2 * Math.PI);
      context.strokeStyle = node.id === this.selected ? this.colors.accent : this.colors.faint;
      context.lineWidth = 2.2;
      context.stroke();
    }
  }

  // The share of a router's routes that changed.
  share(counts) {
    const changed = Object.entries(counts).reduce((sum, [kind, count]) => kind.startsWith('router-') ? sum : sum + count, 0);
    return Math.min(1, changed / (this.routeCount || 1));
  }

  // Stripes over a router that is drained.
  hatch(context, node, x, y, radius) {
    context.save();
    context.beginPath();
    outline(context, node, x, y, radius);
    context.clip();
    context.beginPath();
    for (let at = -3 * radius; at < 3 * radius; at += 5) context.moveTo(x + at, y + radius * 1.3), context.lineTo(x + at + 2.6 * radius, y - radius * 1.3);
    context.strokeStyle = this.colors.dearer;
    context.globalAlpha = 0.55;
    context.lineWidth = 1.6;
    context.stroke();
    context.restore();
  }

  // A ring: the shares of a router's routes that are lost, dearer, moved and better.
  drawImpact(context, counts, x, y, radius) {
    if (!this.routeCount) return;
    let angle = -Math.PI / 2;
    context.lineWidth = 3;
    context.beginPath();
    context.arc(x, y, radius, 0, 2 * Math.PI);
    context.strokeStyle = this.colors.none;
    context.stroke();
    for (const [kind, count] of Object.entries(ringParts(counts))) {
      if (!count) continue;
      const part = Math.max(0.3, 2 * Math.PI * Math.min(1, count / this.routeCount));
      context.beginPath();
      context.arc(x, y, radius, angle, angle + part);
      this.stroke(context, RING_STROKES[kind]);
      angle += part;
    }
  }

  // A number or a word in a pill, as of the routes that are lost though somebody announces their prefix.
  drawBadge(context, label, x, y, fill) {
    context.font = this.colors.badge;
    context.textAlign = 'center';
    context.textBaseline = 'middle';
    const width = Math.max(15, context.measureText(label).width + 8);
    context.beginPath();
    context.roundRect(x - width / 2, y - 7, width, 14, 7);
    context.fillStyle = fill;
    context.fill();
    context.strokeStyle = this.colors.map;
    context.lineWidth = 1.5;
    context.stroke();
    context.fillStyle = this.colors.map;
    context.fillText(label, x, y + 0.5);
  }

  // A flag at a router that announces more than it did, or less: with a plus or a minus on it.
  drawFlag(context, sign, x, y) {
    context.beginPath();
    context.moveTo(x, y), context.lineTo(x, y - 17), context.lineTo(x - 17, y - 17), context.lineTo(x - 13, y - 11.5), context.lineTo(x - 17, y - 6), context.lineTo(x, y - 6);
    context.fillStyle = this.colors.map;
    context.fill();
    context.strokeStyle = this.colors.text;
    context.lineWidth = 1.3;
    context.stroke();
    context.font = this.colors.font;
    context.textAlign = 'center';
    context.textBaseline = 'middle';
    context.fillStyle = this.colors.text;
    context.fillText(sign, x - 6, y - 11);
  }

  // How the shown path ends: in red where it does not arrive.
  drawEnds(context, usual) {
    for (const { id, label, isBad } of this.ends) {
      const place = this.places.get(id), [x, y] = place ? this.onScreen(place) : [];
      if (place) this.drawBadge(context, label, x, y - this.radius(usual) * 1.3 - 14, isBad ? this.colors.lost : this.colors.now);
    }
  }

  // Names: in the nodes where all fit, else below those where there is room, border routers and what is marked first.
  drawNames(context, usual) {
    const radius = this.radius(usual), fits = this.longest * 7 <= 2 * radius;
    const weight = (node) => (node.id === this.selected ? 9 : 0) + (node.failed || node.drained ? 4 : 0) + (node.kind === 'router' ? node.roles.length : 0);
    context.textAlign = 'center';
    for (const node of [...this.nodes.values()].sort((one, other) => weight(other) - weight(one))) {
      const place = this.places.get(node.id), isRouter = node.kind === 'router';
      const isMarked = node.id === this.selected || node.failed || node.drained;
      if (!place || (!isRouter && usual < 70 && !isMarked)) continue;
      const [x, y] = this.onScreen(place);
      if (x < -40 || y < -40 || x > this.width + 40 || y > this.height + 40) continue;
      const isIn = isRouter && fits, below = isIn ? 0 : (isRouter ? radius * 1.3 : radius * 0.5) + 11;
      context.font = isRouter ? this.colors.font : this.colors.small;
      context.textBaseline = 'middle';
      if (!isIn && !this.takes(x, y + below, context.measureText(node.label).width + 4, 12) && !isMarked) continue;
      context.lineWidth = 3;
      context.lineJoin = 'round';
      context.strokeStyle = this.colors.map;
      if (!isIn) context.strokeText(node.label, x, y + below);
      context.fillStyle = node.failed ? this.colors.down : isRouter ? this.colors.text : this.colors.cost;
      context.fillText(node.label, x, y + below + (isIn ? 0.5 : 0));
    }
  }
}

// The corners of the least convex shape around points (the monotone chain of Andrew).
function hullOf(points) {
  const sorted = [...points].sort((a, b) => a[0] - b[0] || a[1] - b[1]);
  const turn = (o, a, b) => (a[0] - o[0]) * (b[1] - o[1]) - (a[1] - o[1]) * (b[0] - o[0]);
  const half = (list) => {
    const kept = [];
    for (const point of list) {
      while (kept.length > 1 && turn(kept[kept.length - 2], kept[kept.length - 1], point) <= 0) kept.pop();
      kept.push(point);
    }
    kept.pop();
    return kept;
  };
  return [...half(sorted), ...half(sorted.reverse())];
}

// The outline of a node: circle, square of an ABR, hexagon of an ASBR, octagon of both, pill of a LAN.
function outline(context, node, x, y, radius) {
  if (node.kind === 'network') {
    context.roundRect(x - radius * 1.3, y - radius * 0.5, radius * 2.6, radius, radius / 2);
    return;
  }
  const [abr, asbr] = ['abr', 'asbr'].map((role) => node.roles.includes(role));
  const corners = abr && asbr ? 8 : asbr ? 6 : abr ? 4 : 0;
  if (!corners) {
    context.arc(x, y, radius, 0, 2 * Math.PI);
    return;
  }
  const size = corners === 4 ? radius * 1.25 : radius * 1.1, turn = corners === 6 ? 0 : Math.PI / corners;
  for (let k = 0; k < corners; k++) {
    const angle = turn + k * 2 * Math.PI / corners;
    context[k ? 'lineTo' : 'moveTo'](x + size * Math.cos(angle), y + size * Math.sin(angle));
  }
  context.closePath();
}

// The parts of the ring of a router: how many of its routes are lost, cost more, moved, or are better.
const ringParts = (counts) => ({ lost: counts.lost + counts.gone, dearer: counts.dearer, moved: counts.moved + counts.type, better: counts.gained + counts.cheaper });

// What became of a router's routes at worst.
const worst = (counts) => counts.lost + counts.gone ? 'lost' : counts.dearer ? 'dearer' : 'moved';

// The outline of a router that is drawn as a dot: a cross where routes are lost, a triangle where they cost more, else a circle.
function dot(context, kind, x, y, radius) {
  const corners = {
    lost: [[1, 0.35], [0.35, 0.35], [0.35, 1], [-0.35, 1], [-0.35, 0.35], [-1, 0.35], [-1, -0.35], [-0.35, -0.35], [-0.35, -1], [0.35, -1], [0.35, -0.35], [1, -0.35]].map(([u, v]) => [(u - v) * 0.9, (u + v) * 0.9]),
    dearer: [[0, -1.25], [1.15, 0.85], [-1.15, 0.85]],
  }[kind];
  if (!corners) context.arc(x, y, radius, 0, 2 * Math.PI);
  else corners.forEach(([u, v], k) => context[k ? 'lineTo' : 'moveTo'](x + radius * u, y + radius * v));
  context.closePath();
}

function distanceToSegment([x, y], [ax, ay], [bx, by]) {
  const [dx, dy] = [bx - ax, by - ay];
  const t = Math.max(0, Math.min(1, ((x - ax) * dx + (y - ay) * dy) / (dx * dx + dy * dy || 1)));
  return Math.hypot(ax + t * dx - x, ay + t * dy - y);
}

// The colors and fonts of the picture, by the variables of the page.
function colorsOf(color) {
  return {
    theme: document.documentElement.dataset.theme,
    areas: Array.from({ length: AREA_COUNT + 1 }, (_, k) => color(`area${k}`)),
    link: color('link'), down: color('down'), dearer: color('dearer-fill'), dearerText: color('dearer'), better: color('better-fill'),
    accent: color('accent'), faint: color('faint'), map: color('map'), cost: color('cost'), before: color('before'), now: color('now'),
    node: color('node'), nodeLine: color('node-line'), none: color('none-fill'), lost: color('lost-fill'), moved: color('moved-fill'),
    text: color('text'), badge: `700 10px ${color('sans')}`, font: `620 12px ${color('sans')}`, small: `500 10.5px ${color('mono')}`, areaFont: `600 11px ${color('sans')}`,
  };
}

// Sets parallel edges apart from each other.
function spreadParallels(edges) {
  const groups = new Map();
  for (const edge of edges.values()) {
    const pair = [edge.a, edge.b].sort().join(' ');
    groups.set(pair, [...(groups.get(pair) ?? []), edge]);
  }
  for (const group of groups.values()) group.forEach((edge, k) => { edge.offset = (k - (group.length - 1) / 2) * 12; });
}
