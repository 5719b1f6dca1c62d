// Reads what packing.py wrote: chunks of frames, in columns of whole numbers.
const COLUMNS = ['template', 'owner', 'x', 'z', 'flags', 'health', 'goal_x', 'goal_z', 'target', 'cooldown'];
const HEALTH = 1, MOTION = 2, GOING = 4, WHOLE = 8, ATTACK = 16, HOLD = 32;
const ONE = 65536;

// Numbers that are taken from the front of bytes.
class Numbers {
  constructor(bytes) { this.bytes = bytes; this.at = 0; }

  next() {
    let value = 0, scale = 1, byte;
    do {
      byte = this.bytes[this.at++];
      value += (byte & 127) * scale;
      scale *= 128;
    } while (byte > 127);
    return value % 2 ? -(value + 1) / 2 : value / 2;
  }
}

function readIds(numbers, count) {
  const ids = new Uint32Array(count);
  for (let row = 0, last = 0; row < count; row++) ids[row] = last += numbers.next();
  return ids;
}

// For each row its place in the frame before, or -1 where it is new. Both lists of ids ascend.
function placesBefore(ids, before) {
  const places = new Int32Array(ids.length).fill(-1);
  for (let row = 0, old = 0; before && row < ids.length; row++) {
    while (old < before.ids.length && before.ids[old] < ids[row]) old++;
    if (before.ids[old] === ids[row]) places[row] = old;
  }
  return places;
}

function readColumn(numbers, places, before) {
  const column = new Int32Array(places.length);
  for (let row = 0; row < column.length; row++) {
    column[row] = numbers.next() + (places[row] < 0 ? 0 : before[places[row]]);
  }
  return column;
}

// The places at which the ways begin and end in one list of points, from their codes.
function wayStarts(codes, places, before) {
  const starts = new Int32Array(codes.length + 1);
  for (let row = 0; row < codes.length; row++) {
    starts[row + 1] = starts[row] + wayLength(codes[row], places[row], before);
  }
  return starts;
}

function wayLength(code, place, before) {
  if (code % 2) return code - 1;
  return place < 0 ? 0 : before.starts[place + 1] - before.starts[place] - code;
}

function readWays(numbers, frame, places, before) {
  const codes = Array.from(frame.ids, () => numbers.next());
  frame.starts = wayStarts(codes, places, before);
  frame.points = new Int32Array(frame.starts[codes.length]);
  codes.forEach((code, row) => {
    if (code % 2) readPoints(numbers, frame, row);
    else if (places[row] >= 0) keepPoints(frame, row, before, before.starts[places[row]] + code);
  });
}

function keepPoints(frame, row, before, from) {
  const length = frame.starts[row + 1] - frame.starts[row];
  frame.points.set(before.points.subarray(from, from + length), frame.starts[row]);
}

function readPoints(numbers, frame, row) {
  for (const [offset, name] of [[0, 'x'], [1, 'z']]) {
    let last = frame[name][row];
    for (let at = frame.starts[row] + offset; at < frame.starts[row + 1]; at += 2) {
      frame.points[at] = last += numbers.next();
    }
  }
}

function readFrame(numbers, before) {
  const count = numbers.next();
  const frame = { ids: readIds(numbers, count) };
  const places = placesBefore(frame.ids, before);
  for (const name of COLUMNS) frame[name] = readColumn(numbers, places, before && before[name]);
  readWays(numbers, frame, places, before);
  return frame;
}

async function inflate(text) {
  const bytes = Uint8Array.from(atob(text), letter => letter.charCodeAt(0));
  const stream = new Blob([bytes]).stream().pipeThrough(new DecompressionStream('deflate'));
  return new Uint8Array(await new Response(stream).arrayBuffer());
}

// The frames of a film. Chunks are read when a frame of theirs is asked for, and the last few are kept.
class Film {
  constructor(heads, firsts) { this.heads = heads; this.firsts = firsts; this.kept = new Map(); }

  chunkOf(place) {
    let chunk = 0;
    while (chunk + 1 < this.firsts.length && this.firsts[chunk + 1] <= place) chunk++;
    return chunk;
  }

  async read(chunk) {
    const numbers = new Numbers(await inflate(document.getElementById('chunk-' + chunk).textContent.trim()));
    const end = chunk + 1 < this.firsts.length ? this.firsts[chunk + 1] : this.heads.length;
    const frames = [];
    for (let place = this.firsts[chunk]; place < end; place++) frames.push(readFrame(numbers, frames.at(-1)));
    return frames;
  }

  // The frames of a chunk, read at most once while they are kept.
  chunk(number) {
    if (!this.kept.has(number)) {
      if (this.kept.size > 5) this.kept.delete(this.kept.keys().next().value);
      this.kept.set(number, this.read(number));
    }
    return this.kept.get(number);
  }

  async frame(place) {
    const chunk = this.chunkOf(place);
    const frames = await this.chunk(chunk);
    if (chunk + 1 < this.firsts.length) this.chunk(chunk + 1);
    return frames[place - this.firsts[chunk]];
  }
}
