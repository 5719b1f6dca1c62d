// The page: which frame is shown, what is selected, and what the user does.
const element = name => document.getElementById(name);

// A raw as the program prints it.
function printRaw(raw) {
  const whole = Math.floor(Math.abs(raw) / ONE), part = Math.abs(raw) % ONE;
  const tail = part ? '.' + String(Math.ceil(part * 100000 / ONE)).padStart(5, '0') : '';
  return (raw < 0 ? '-' : '') + whole + tail;
}

// The row of an entity as `show` prints it.
function shownRow(frame, row, templates) {
  const flags = frame.flags[row], words = ['entity', frame.ids[row], 'template', templates[frame.template[row]].name];
  words.push('owner', frame.owner[row], 'at', printRaw(frame.x[row]), printRaw(frame.z[row]));
  if (flags & HEALTH) words.push('health', printRaw(frame.health[row]));
  if (flags & GOING) {
    words.push('motion going', printRaw(frame.goal_x[row]), printRaw(frame.goal_z[row]));
    words.push('way', (frame.starts[row + 1] - frame.starts[row]) / 2, 'whole', flags & WHOLE ? 1 : 0);
  } else if (flags & MOTION) words.push('motion still');
  if (flags & ATTACK) words.push('attack target', frame.target[row], 'cooldown', frame.cooldown[row]);
  if (flags & HOLD) words.push('hold');
  return words.join(' ');
}

// All that is the same of an entity in two frames has the same text.
function wholeRow(frame, row, templates) {
  return shownRow(frame, row, templates) + frame.points.subarray(frame.starts[row], frame.starts[row + 1]).join(' ');
}

class Viewer {
  constructor(index) {
    this.index = index;
    this.film = new Film(index.heads, index.firsts);
    this.painter = new Painter(element('ground'), index);
    this.place = this.selected = 0;
    this.marked = new Set();
    this.playing = false;
  }

  // Shows the frame of that place, and answers when it is drawn.
  async show(place) {
    this.place = Math.max(0, Math.min(this.index.heads.length - 1, place));
    const asked = this.place;
    const frame = await this.film.frame(asked);
    if (asked !== this.place) return;
    this.frame = frame;
    this.tell();
    this.draw();
  }

  draw() {
    this.painter.turn = this.index.heads[this.place][0];
    this.painter.paint(this.frame, this.selected, this.marked);
  }

  tell() {
    const [turn, digest, next, word, rows] = this.index.heads[this.place];
    element('slider').value = this.place;
    element('label').textContent = (this.index.labels || [])[this.place] || '';
    element('turn').textContent = 'turn ' + turn;
    element('count').textContent = `${rows} rows, next ${next}, word ${word}`;
    element('digest').textContent = digest;
    this.tellOwners();
    if (this.selected) this.tellRow();
  }

  tellOwners() {
    const counts = COLOURS.map(() => 0);
    for (const owner of this.frame.owner) counts[owner]++;
    element('owners').replaceChildren(...counts.flatMap((count, owner) => {
      return count ? [this.ownerLabel(owner, count)] : [];
    }));
  }

  ownerLabel(owner, count) {
    const label = document.createElement('span'), colour = document.createElement('i');
    label.className = 'owner';
    colour.style.background = COLOURS[owner];
    label.append(colour, `${owner ? 'player ' + owner : 'Gaia'}: ${count}`);
    return label;
  }

  tellRow() {
    const row = this.painter.placesOf(this.frame).get(this.selected);
    element('row').textContent = row === undefined ? `entity ${this.selected} is not there in this turn` : this.rowText(row);
  }

  rowText(row) {
    const { frame, index: { templates } } = this, points = [];
    for (let at = frame.starts[row]; at < frame.starts[row + 1]; at += 2) {
      points.push(`(${printRaw(frame.points[at])} ${printRaw(frame.points[at + 1])})`);
    }
    const way = points.length ? `\nway ${points.join(' ')}` : '';
    return `${shownRow(frame, row, templates)}${way}\n${templates[frame.template[row]].line}`;
  }

  select(id) {
    this.selected = id;
    if (id) this.tellRow();
    else element('row').textContent = '';
    this.draw();
  }

  // Of two stored states every entity that is not the same in both is marked.
  async markDifferences() {
    const [left, right] = await Promise.all([this.film.frame(0), this.film.frame(1)]);
    const texts = [left, right].map(frame => new Map(Array.from(frame.ids, (id, row) => [id, wholeRow(frame, row, this.index.templates)])));
    for (const id of new Set([...left.ids, ...right.ids])) {
      if (texts[0].get(id) !== texts[1].get(id)) this.marked.add(id);
    }
  }

  tellDifference() {
    const { difference } = this.index;
    if (!difference) return;
    element('difference').hidden = false;
    element('difference').textContent = difference.text;
    if (difference.entity > 1) this.selected = difference.entity;
    this.marked.add(difference.entity);
  }

  // What the program tells beside the states: who has explored what, and what each holds.
  async tellKnowledge() {
    const { explored, realm, players, size } = this.index;
    element('realm').hidden = !realm;
    element('realm').textContent = realm || '';
    if (!explored) return;
    this.painter.explored = await Explored.read(explored, size);
    element('sight').hidden = false;
    for (let player = 1; player <= players; player++) element('seer').add(new Option('player ' + player, player));
    element('seer').onchange = event => { this.painter.seer = Number(event.target.value); this.draw(); };
  }

  async run() {
    let last = performance.now();
    const step = async now => {
      if (!this.playing) return;
      if (now - last >= 1000 / Number(element('speed').value || 10) - 2) {
        last = now;
        await this.show(this.place + 1);
        if (this.place === this.index.heads.length - 1) this.setPlaying(false);
      }
      requestAnimationFrame(step);
    };
    requestAnimationFrame(step);
  }

  setPlaying(playing) {
    this.playing = playing;
    element('play').textContent = playing ? 'stop' : 'play';
    if (playing) this.run();
  }

  togglePlay() {
    if (!this.playing && this.place === this.index.heads.length - 1) this.place = -1;
    this.setPlaying(!this.playing);
  }
}

function listenToControls(viewer) {
  const last = viewer.index.heads.length - 1;
  element('slider').max = last;
  element('slider').oninput = event => viewer.show(Number(event.target.value));
  const does = { first: () => viewer.show(0), back: () => viewer.show(viewer.place - 1), play: () => viewer.togglePlay(),
    forth: () => viewer.show(viewer.place + 1), last: () => viewer.show(last),
    whole: () => { viewer.painter.view.reset(); viewer.draw(); } };
  for (const name in does) element(name).onclick = does[name];
  for (const name of ['ways', 'targets']) {
    element(name).onchange = event => { viewer.painter[name] = event.target.checked; viewer.draw(); };
  }
  const keys = { ArrowLeft: 'back', ArrowRight: 'forth', Home: 'first', End: 'last', ' ': 'play' };
  document.onkeydown = event => {
    if (!keys[event.key] || event.target.tagName === 'INPUT' || event.target.tagName === 'BUTTON') return;
    event.preventDefault();
    does[keys[event.key]]();
  };
}

// A click selects; a drag moves the ground; the wheel enlarges it.
function listenToGround(viewer) {
  const canvas = element('ground'), { view } = viewer.painter;
  let from = null, moved = 0;
  canvas.onpointerdown = event => { from = event; moved = 0; canvas.setPointerCapture(event.pointerId); };
  canvas.onpointermove = event => {
    if (!from) return;
    view.move(event.clientX - from.clientX, event.clientY - from.clientY);
    moved += Math.abs(event.clientX - from.clientX) + Math.abs(event.clientY - from.clientY);
    from = event;
    viewer.draw();
  };
  canvas.onpointerup = event => {
    if (from && moved < 4) viewer.select(viewer.painter.entityAt(viewer.frame, view.point(event)));
    from = null;
  };
  canvas.onwheel = event => {
    event.preventDefault();
    view.enlarge(event.deltaY < 0 ? 1.2 : 1 / 1.2, view.point(event));
    viewer.draw();
  };
}

// The events of a session as a table: a row an event, a column a client.
function tellEvents(events, clients) {
  if (!events) return;
  const table = document.createElement('table');
  const head = table.insertRow();
  for (let client = 1; client <= clients; client++) {
    const cell = document.createElement('th');
    cell.textContent = 'client ' + client;
    head.append(cell);
  }
  for (const [client, text, off] of events) {
    const row = table.insertRow();
    for (let column = 1; column <= clients; column++) row.insertCell();
    row.cells[client - 1].textContent = text;
    if (off) row.cells[client - 1].className = 'off';
  }
  element('events').append(table);
}

// The frame that the address asks for, as in #turn=5&select=3.
async function showAsked(viewer) {
  const asked = new URLSearchParams(location.hash.slice(1));
  if (asked.has('select')) viewer.selected = Number(asked.get('select'));
  const place = viewer.index.heads.findIndex(head => head[0] === Number(asked.get('turn')));
  await viewer.show(asked.has('turn') && place >= 0 ? place : 0);
}

window.onerror = message => { element('faults').textContent = message; };
window.onunhandledrejection = event => { element('faults').textContent = String(event.reason); };

async function begin() {
  const index = JSON.parse(element('index').textContent);
  const viewer = window.viewer = new Viewer(index);
  listenToControls(viewer);
  listenToGround(viewer);
  tellEvents(index.events, index.players);
  if (index.kind === 'states') await viewer.markDifferences();
  viewer.tellDifference();
  await viewer.tellKnowledge();
  await showAsked(viewer);
  document.body.dataset.ready = 'yes';
}
begin();
