// Draws a frame on a canvas. North is up; a point of the ground is in metres.
const COLOURS = ['#8c8c8c', '#2166d1', '#e8820c', '#2f9e44', '#8b3fc4', '#0b9aa8', '#7a4a1c', '#e255a1', '#9a9a00'];
const RED = '#ff0000', HURT = '#c9c9c9', WELL = '#33cc33';
const MOST_POINTS = 20000;

// Where the ground lies on the canvas: the metres at its lower left corner, and pixels a metre.
class View {
  constructor(canvas, size) { this.canvas = canvas; this.size = size; this.reset(); }

  reset() {
    const [width, depth] = this.size;
    this.scale = Math.min(this.canvas.width / width, this.canvas.height / depth);
    this.x = (width - this.canvas.width / this.scale) / 2;
    this.z = (depth - this.canvas.height / this.scale) / 2;
  }

  across(x) { return (x - this.x) * this.scale; }
  down(z) { return this.canvas.height - (z - this.z) * this.scale; }

  point(event) {
    const box = this.canvas.getBoundingClientRect();
    const across = event.clientX - box.left, up = this.canvas.height - (event.clientY - box.top);
    return [this.x + across / this.scale, this.z + up / this.scale];
  }

  move(pixelsAcross, pixelsDown) {
    this.x -= pixelsAcross / this.scale;
    this.z += pixelsDown / this.scale;
  }

  enlarge(factor, [x, z]) {
    this.scale *= factor;
    this.x = x - (x - this.x) / factor;
    this.z = z - (z - this.z) / factor;
  }
}

// What each player has explored: of each cell, by player, z and x, at which of some turns it was explored first.
class Explored {
  constructor(turns, cells, size) { this.turns = turns; this.cells = cells; this.size = size; this.kept = new Map(); }

  static async read(explored, size) { return new Explored(explored.turns, await inflate(explored.cells), size); }

  // A picture of one pixel a cell, dark where a player has not explored by a turn.
  picture(player, turn) {
    const sample = this.turns.findLastIndex(it => it <= turn), key = player * 256 + sample;
    if (!this.kept.has(key)) this.kept.set(key, this.draw(player, sample));
    return this.kept.get(key);
  }

  draw(player, sample) {
    const [width, depth] = this.size, canvas = document.createElement('canvas');
    canvas.width = width;
    canvas.height = depth;
    const context = canvas.getContext('2d'), image = context.createImageData(width, depth);
    for (let cell = 0; cell < width * depth; cell++) {
      const seen = this.cells[(player - 1) * width * depth + cell] <= sample;
      const x = cell % width, z = Math.floor(cell / width);
      image.data[((depth - 1 - z) * width + x) * 4 + 3] = seen ? 0 : 120;
    }
    context.putImageData(image, 0, 0);
    return canvas;
  }
}

class Painter {
  constructor(canvas, index) {
    this.canvas = canvas;
    this.index = index;
    this.context = canvas.getContext('2d');
    this.view = new View(canvas, index.size);
    this.ways = this.targets = true;
    this.explored = null;
    this.seer = this.turn = 0;
  }

  isBuilding(frame, row) { return this.index.templates[frame.template[row]].width > 0; }

  // The rectangle of a building in cells: its least corner and its sides.
  cells(frame, row) {
    const { width, depth } = this.index.templates[frame.template[row]];
    const x = Math.floor(frame.x[row] / ONE) - Math.floor(width / 2);
    const z = Math.floor(frame.z[row] / ONE) - Math.floor(depth / 2);
    return [x, z, width, depth];
  }

  // Paints a frame; selected is an id or 0, marked the ids that differ.
  paint(frame, selected, marked) {
    this.paintGround();
    if (this.seer) this.paintUnexplored();
    this.paintBuildings(frame);
    if (this.ways) this.paintWays(frame, selected);
    if (this.targets) this.paintTargets(frame);
    this.paintUnits(frame);
    this.paintHealth(frame);
    this.paintSelected(frame, selected);
    this.paintMarked(frame, marked);
  }

  rectangle(path, x, z, width, depth) {
    const { view } = this;
    path.rect(view.across(x), view.down(z + depth), width * view.scale, depth * view.scale);
  }

  paintGround() {
    const { context, index, canvas } = this, path = new Path2D(), ground = new Path2D();
    context.fillStyle = '#dddddd';
    context.fillRect(0, 0, canvas.width, canvas.height);
    this.rectangle(ground, 0, 0, ...index.size);
    context.fillStyle = '#f4f1e4';
    context.fill(ground);
    for (const [x0, z0, x1, z1] of index.closed) this.rectangle(path, x0, z0, x1 - x0 + 1, z1 - z0 + 1);
    context.fillStyle = '#4a4a4a';
    context.fill(path);
    if (this.view.scale >= 8) this.paintGrid();
  }

  paintUnexplored() {
    const { context, view, index: { size: [width, depth] } } = this;
    context.imageSmoothingEnabled = false;
    const picture = this.explored.picture(this.seer, this.turn);
    context.drawImage(picture, view.across(0), view.down(depth), width * view.scale, depth * view.scale);
  }

  paintGrid() {
    const { context, view, index: { size: [width, depth] } } = this;
    context.beginPath();
    for (let x = 0; x <= width; x++) this.line(x, 0, x, depth);
    for (let z = 0; z <= depth; z++) this.line(0, z, width, z);
    context.lineWidth = 0.5;
    context.strokeStyle = '#00000022';
    context.stroke();
  }

  line(x0, z0, x1, z1) {
    this.context.moveTo(this.view.across(x0), this.view.down(z0));
    this.context.lineTo(this.view.across(x1), this.view.down(z1));
  }

  // One path an owner, filled in the owner's colour.
  fillByOwner(frame, add) {
    const paths = COLOURS.map(() => new Path2D());
    for (let row = 0; row < frame.ids.length; row++) add(paths[frame.owner[row]], row);
    paths.forEach((path, owner) => {
      this.context.fillStyle = COLOURS[owner];
      this.context.fill(path);
    });
    return paths;
  }

  paintBuildings(frame) {
    const paths = this.fillByOwner(frame, (path, row) => {
      if (this.isBuilding(frame, row)) this.rectangle(path, ...this.cells(frame, row));
    });
    this.context.strokeStyle = '#222222';
    this.context.lineWidth = 1.5;
    for (const path of paths) this.context.stroke(path);
  }

  // Units are discs, or where the ground is small squares, which are drawn much faster.
  paintUnits(frame) {
    const radius = 0.4 * this.view.scale;
    if (radius >= 4) this.paintDiscs(frame, radius);
    else this.paintSquares(frame, Math.max(3, Math.round(2 * radius)));
  }

  paintDiscs(frame, radius) {
    const paths = this.fillByOwner(frame, (path, row) => {
      if (this.isBuilding(frame, row)) return;
      const across = this.view.across(frame.x[row] / ONE), down = this.view.down(frame.z[row] / ONE);
      path.moveTo(across + radius, down);
      path.arc(across, down, radius, 0, 2 * Math.PI);
    });
    this.context.strokeStyle = '#ffffff';
    this.context.lineWidth = 1;
    for (const path of paths) this.context.stroke(path);
  }

  paintSquares(frame, side) {
    const { context, view } = this;
    for (let owner = 0; owner < COLOURS.length; owner++) {
      context.fillStyle = COLOURS[owner];
      for (let row = 0; row < frame.ids.length; row++) {
        if (frame.owner[row] !== owner || this.isBuilding(frame, row)) continue;
        const across = view.across(frame.x[row] / ONE), down = view.down(frame.z[row] / ONE);
        context.fillRect(Math.round(across - side / 2), Math.round(down - side / 2), side, side);
      }
    }
  }

  // The ways of all, or where they have very many points that of the selected entity alone.
  paintWays(frame, selected) {
    const { context } = this, all = frame.points.length / 2 <= MOST_POINTS;
    context.beginPath();
    for (let row = 0; row < frame.ids.length; row++) {
      if (all || frame.ids[row] === selected) this.traceWay(frame, row);
    }
    context.lineWidth = 1;
    context.strokeStyle = '#00000055';
    context.stroke();
  }

  traceWay(frame, row) {
    const { context, view } = this;
    context.moveTo(view.across(frame.x[row] / ONE), view.down(frame.z[row] / ONE));
    for (let at = frame.starts[row]; at < frame.starts[row + 1]; at += 2) {
      context.lineTo(view.across(frame.points[at] / ONE), view.down(frame.points[at + 1] / ONE));
    }
  }

  paintTargets(frame) {
    const { context } = this, places = this.placesOf(frame);
    context.beginPath();
    for (let row = 0; row < frame.ids.length; row++) {
      const place = frame.target[row] ? places.get(frame.target[row]) : undefined;
      if (place === undefined) continue;
      this.line(frame.x[row] / ONE, frame.z[row] / ONE, frame.x[place] / ONE, frame.z[place] / ONE);
    }
    context.lineWidth = 1;
    context.strokeStyle = '#aa00aa99';
    context.stroke();
  }

  placesOf(frame) {
    if (!frame.places) frame.places = new Map(Array.from(frame.ids, (id, row) => [id, row]));
    return frame.places;
  }

  // A bar over whoever is hurt, where it is large enough to be read.
  paintHealth(frame) {
    if (this.view.scale < 5) return;
    const hurt = [];
    for (let row = 0; row < frame.ids.length; row++) {
      const most = this.index.templates[frame.template[row]].health;
      if (frame.flags[row] & HEALTH && frame.health[row] < most) hurt.push([row, Math.max(0, frame.health[row] / most)]);
    }
    this.paintBars(frame, hurt.map(([row]) => [row, 1]), HURT);
    this.paintBars(frame, hurt, WELL);
  }

  paintBars(frame, bars, colour) {
    const { context, view } = this, height = Math.max(2, Math.round(view.scale * 0.12));
    context.fillStyle = colour;
    for (const [row, share] of bars) {
      const across = Math.round(view.across(frame.x[row] / ONE - 0.5)), down = Math.round(view.down(frame.z[row] / ONE + 0.65));
      context.fillRect(across, down, Math.round(view.scale * share), height);
    }
  }

  ring(x, z, metres, colour, width) {
    const { context, view } = this;
    context.beginPath();
    context.arc(view.across(x), view.down(z), metres * view.scale, 0, 2 * Math.PI);
    context.lineWidth = width;
    context.strokeStyle = colour;
    context.stroke();
  }

  paintSelected(frame, selected) {
    const row = this.placesOf(frame).get(selected);
    if (row === undefined) return;
    const x = frame.x[row] / ONE, z = frame.z[row] / ONE, template = this.index.templates[frame.template[row]];
    this.ring(x, z, 0.7, '#000000', 2);
    if (template.range) this.ring(x, z, template.range / ONE, '#00000088', 1);
    if (template.vision) this.ring(x, z, template.vision / ONE, '#00000044', 1);
  }

  paintMarked(frame, marked) {
    const places = this.placesOf(frame);
    for (const id of marked) {
      const row = places.get(id);
      if (row !== undefined) this.ring(frame.x[row] / ONE, frame.z[row] / ONE, 0.75, RED, 3);
    }
  }

  // The id of the entity at a point, a unit before the building behind it, or 0.
  entityAt(frame, [x, z]) {
    let best = 0, least = (Math.max(0.6, 6 / this.view.scale)) ** 2;
    for (let row = 0; row < frame.ids.length; row++) {
      const square = (frame.x[row] / ONE - x) ** 2 + (frame.z[row] / ONE - z) ** 2;
      if (!this.isBuilding(frame, row) && square < least) { least = square; best = frame.ids[row]; }
    }
    return best || this.buildingAt(frame, x, z);
  }

  buildingAt(frame, x, z) {
    for (let row = 0; row < frame.ids.length; row++) {
      if (!this.isBuilding(frame, row)) continue;
      const [left, low, width, depth] = this.cells(frame, row);
      if (x >= left && x < left + width && z >= low && z < low + depth) return frame.ids[row];
    }
    return 0;
  }
}
