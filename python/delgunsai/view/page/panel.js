// One file on the screen. Its tiles are of one epoch: a revision, by its tag, and a stretch. An answer that belongs to another epoch is
// dropped, and what is drawn is cleared when an epoch begins. So tiles of two revisions are never on the screen together.
import {levelOf, factorOf, viewIn, toMap} from './place.js';

const BACK = '#14171c';
const FLIGHTS = 8;                                           // requests at once
const KEPT = 400;                                            // tiles
const CALM = 120;                                            // milliseconds without a move, before a value or a stretch is asked for
const NOTICE = 5000;                                         // milliseconds, for which a replacement is told
const REST = 2000;                                           // milliseconds, before a tile that failed is asked for again

export class Panel {
  constructor(file, settings, changed) {
    this.file = file;
    this.side = settings.side;
    this.changed = changed;                                  // is called where the page is to be drawn again
    this.info = this.epoch = this.pointer = null;
    this.view = null;                                        // in the levels of this file, once it is drawn
    this.failure = null;                                     // why the file can't be read
    this.news = null;                                        // what is said for a while
    this.tiles = new Map();
    this.flights = new Map();
    this.failed = new Map();
    this.replacements = 0;
    this.root = document.getElementById('panel').content.firstElementChild.cloneNode(true);
    this.canvas = this.find('canvas');
    this.context = this.canvas.getContext('2d');
    this.find('.place').textContent = file.place;
    this.root.dataset.name = file.name;
    this.prepareStretch();
  }

  find(selector) {
    return this.root.querySelector(selector);
  }

  // ---- the revision

  // Asks for the info. It is of the newest revision that the server knows.
  async look() {
    if (this.looks) return;
    this.looks = true;
    try {
      const answer = await fetch(`/info/${this.file.name}.json`, {cache: 'no-store'});
      const told = await answer.json();
      if (answer.status === 200) this.adopt(told);
      else if (answer.status === 202) this.wait(told.reading);
      else this.fail(told.error);
    } catch {
      this.fail('The viewer has ended: start it again.');
    } finally {
      this.looks = false;
    }
  }

  adopt(info) {
    this.failure = null;
    if (this.info !== null && this.info.tag === info.tag) return this.changed();
    const before = this.info;
    if (before === null || before.most !== info.most) this.limits = info.limits;
    this.info = info;
    this.view = null;
    this.begin();
    this.say(null);
    if (before !== null) {
      this.root.dataset.replaced = ++this.replacements;
      this.say(`The file was replaced, and is drawn anew (${new Date().toLocaleTimeString()}).`, NOTICE);
    }
    this.showStretch();
  }

  wait(seconds) {
    this.failure = null;
    this.say(`Reading for ${Math.round(seconds)} seconds ..`);
    setTimeout(() => this.look(), 300);
  }

  fail(sentence) {
    this.failure = sentence;
    this.changed();
  }

  // Says something until something else is said, or for some milliseconds.
  say(sentence, until = null) {
    this.news = sentence;
    clearTimeout(this.timer);
    if (until !== null) this.timer = setTimeout(() => this.say(null), until);
    this.changed();
  }

  // Begins an epoch: nothing of the one before is drawn or waited for any more.
  begin() {
    for (const flight of this.flights.values()) flight.abort();
    for (const tile of this.tiles.values()) tile.close();
    this.tiles = new Map();
    this.flights = new Map();
    this.failed = new Map();
    this.epoch = {tag: this.info.tag, limits: this.limits};
  }

  // ---- tiles

  url(key) {
    const [low, high] = this.epoch.limits;
    return `/tiles/${this.file.name}/${key}.png?tag=${encodeURIComponent(this.epoch.tag)}&low=${low}&high=${high}`;
  }

  async fly(key) {
    const epoch = this.epoch, flight = new AbortController();
    this.flights.set(key, flight);
    try {
      const answer = await fetch(this.url(key), {signal: flight.signal});
      if (answer.status === 409 || answer.ok && answer.headers.get('ETag') !== epoch.tag) return this.look();
      if (!answer.ok) throw new Error((await answer.json()).error);
      const tile = await createImageBitmap(await answer.blob());
      if (this.epoch === epoch) this.keep(key, tile);
    } catch (error) {
      if (this.epoch === epoch && error.name !== 'AbortError') this.failed.set(key, {sentence: error.message, time: performance.now()});
    } finally {
      if (this.flights.get(key) === flight) this.flights.delete(key);
      this.changed();
    }
  }

  keep(key, tile) {
    this.failed.delete(key);
    this.tiles.set(key, tile);
    if (this.tiles.size <= KEPT) return;
    const [oldest] = this.tiles.keys();
    this.tiles.get(oldest).close();
    this.tiles.delete(oldest);
  }

  // Says whether a tile may be asked for: one that failed rests for a while.
  rests(key) {
    const failed = this.failed.get(key);
    return failed !== undefined && performance.now() - failed.time < REST;
  }

  // Asks for the tiles that are missing, the one nearest to the middle first, and gives up those that aren't wanted any more.
  want(keys) {
    for (const [key, flight] of this.flights) {
      if (!keys.includes(key)) flight.abort(), this.flights.delete(key);
    }
    const missing = keys.filter(key => !this.tiles.has(key) && !this.flights.has(key) && !this.rests(key));
    for (const key of missing.slice(0, FLIGHTS - this.flights.size)) this.fly(key);
  }

  // ---- drawing

  // Gives the canvas the whole pixels of its frame, lest the browser blur it.
  resize() {
    const box = this.find('.frame').getBoundingClientRect(), left = Math.ceil(box.left), top = Math.ceil(box.top);
    const width = Math.floor(box.right) - left, height = Math.floor(box.bottom) - top;
    this.canvas.style.left = `${left - box.left}px`;
    this.canvas.style.top = `${top - box.top}px`;
    if (this.canvas.width !== width) this.canvas.width = width;
    if (this.canvas.height !== height) this.canvas.height = height;
  }

  // Draws what the guide shows at this view, and asks for what is missing. Without a guide the first file isn't read yet.
  draw(guide, view) {
    this.resize();
    this.context.fillStyle = BACK;
    this.context.fillRect(0, 0, this.canvas.width, this.canvas.height);
    if (this.info === null || !guide) return this.show('reading', [], []);
    this.view = viewIn(this.info, guide, view);
    const level = levelOf(this.view.zoom), keys = this.visible(level);
    const ready = keys.filter(key => this.tiles.has(key));
    if (ready.length < keys.length) this.drawRough(level);
    this.drawLevel(ready, factorOf(this.view.zoom), false);
    this.want([...keys, ...this.visible(this.info.levels.length - 1).filter(key => !keys.includes(key))]);
    this.show(ready.length === keys.length ? 'ready' : 'drawing', ready, keys);
  }

  // The upper left corner of the screen in screen pixels from that of the image.
  corner() {
    const factor = factorOf(this.view.zoom);
    return [Math.round(this.view.x * factor - this.canvas.width / 2), Math.round(this.view.y * factor - this.canvas.height / 2)];
  }

  // How many screen pixels a pixel of a level has across and down.
  scaleOf(level) {
    const own = this.info.levels[levelOf(this.view.zoom)], sides = this.info.levels[level], factor = factorOf(this.view.zoom);
    return [factor * own[0] / sides[0], factor * own[1] / sides[1]];
  }

  // The keys of the tiles of a level on the screen, the one nearest to the middle first.
  visible(level) {
    const [left, top] = this.corner(), [across, down] = this.scaleOf(level).map(scale => scale * this.side);
    const [width, height] = this.info.levels[level], found = [];
    const last = [Math.ceil(width / this.side), Math.ceil(height / this.side)].map(count => count - 1);
    const middle = [(left + this.canvas.width / 2) / across - 0.5, (top + this.canvas.height / 2) / down - 0.5];
    for (let y = Math.max(0, Math.floor(top / down)); y <= Math.min(last[1], (top + this.canvas.height - 1) / down); y++) {
      for (let x = Math.max(0, Math.floor(left / across)); x <= Math.min(last[0], (left + this.canvas.width - 1) / across); x++) {
        found.push([Math.hypot(x - middle[0], y - middle[1]), `${level}/${x}/${y}`]);
      }
    }
    return found.sort((one, other) => one[0] - other[0]).map(([, key]) => key);
  }

  // Draws the smallest level of the same epoch, enlarged, for as long as tiles are missing.
  drawRough(level) {
    const last = this.info.levels.length - 1;
    if (last !== level) this.drawLevel(this.visible(last).filter(key => this.tiles.has(key)), null, true);
  }

  drawLevel(keys, factor, isSmooth) {
    const [left, top] = this.corner();
    this.context.imageSmoothingEnabled = isSmooth;
    for (const key of keys) {
      const [level, x, y] = key.split('/').map(Number);
      const [across, down] = factor === null ? this.scaleOf(level) : [factor, factor], tile = this.tiles.get(key);
      this.context.drawImage(tile, x * this.side * across - left, y * this.side * down - top, this.side * across, this.side * down);
    }
  }

  // ---- words

  // Shows the state, which is an error where the file or a tile on the screen can't be read.
  show(state, ready, keys) {
    const missed = keys.map(key => this.failed.get(key)).find(failed => failed !== undefined);
    const wrong = this.failure ?? (missed ? missed.sentence : null), tag = this.epoch ? this.epoch.tag : '';
    Object.assign(this.root.dataset, {state: wrong === null ? state : 'error', ready: ready.length, count: keys.length, tag});
    this.find('.tag').textContent = tag;
    this.notify(wrong ?? this.news, wrong !== null);
    const bar = this.find('progress');
    if (state === 'reading') bar.removeAttribute('value');
    else bar.max = keys.length, bar.value = ready.length;
    this.showLevel();
  }

  notify(sentence, isWrong) {
    const notice = this.find('.notice');
    notice.hidden = sentence === null;
    notice.textContent = sentence;
    notice.classList.toggle('warns', isWrong);
  }

  showLevel() {
    if (this.view === null) return;
    const level = levelOf(this.view.zoom), [width, height] = this.info.levels[level], factor = factorOf(this.view.zoom);
    this.root.dataset.level = level;
    this.find('.level').textContent = `${level}: ${width} × ${height}` + (factor > 1 ? `, ${factor} times` : '');
    this.point();
  }

  // Shows what lies so far from the middle of the screen; without words what did before.
  point(pointer = this.pointer) {
    this.pointer = pointer;
    if (pointer === null || this.view === null) return;
    const factor = factorOf(this.view.zoom), level = levelOf(this.view.zoom), [left, top] = this.corner();
    const place = [left + Math.floor(this.canvas.width / 2) + pointer[0], top + Math.floor(this.canvas.height / 2) + pointer[1]];
    const [x, y] = place.map(number => Math.floor(number / factor)), [width, height] = this.info.levels[level];
    const isInside = x >= 0 && y >= 0 && x < width && y < height;
    const key = isInside ? `${level}/${x}/${y}` : '';
    if (key === this.pointed && this.epoch === this.pointedIn) return;
    this.pointed = key, this.pointedIn = this.epoch;
    this.find('.pixel').textContent = isInside ? `${x}, ${y}` : '';
    this.find('.map').textContent = isInside ? this.mapWords(level, x, y) : '';
    this.find('.value').textContent = '';
    clearTimeout(this.valueTimer);
    if (isInside) this.valueTimer = setTimeout(() => this.value(key), CALM);
  }

  mapWords(level, x, y) {
    const [wide, high] = this.info.levels[0], [width, height] = this.info.levels[level];
    const [a, b, , d, e] = this.info.transform;
    const size = Math.max(Math.abs(a), Math.abs(b), Math.abs(d), Math.abs(e));
    const digits = Math.min(Math.max(0, 2 - Math.floor(Math.log10(size || 1))), 12);
    const place = toMap(this.info.transform, [(x + 0.5) * wide / width, (y + 0.5) * high / height]);
    return place.map(number => number.toFixed(digits)).join(', ');
  }

  async value(key) {
    const epoch = this.epoch;
    const answer = await fetch(`/info/${this.file.name}/${key}.json?tag=${encodeURIComponent(epoch.tag)}`).catch(() => null);
    if (answer === null || this.epoch !== epoch || this.pointed !== key) return;
    if (answer.status === 409) return this.look();
    if (answer.ok) this.find('.value').textContent = (await answer.json()).value.join(', ');
  }

  // ---- the stretch

  prepareStretch() {
    this.low = this.find('.low'), this.high = this.find('.high');
    for (const slider of [this.low, this.high]) {
      slider.addEventListener('input', () => this.slide([Number(this.low.value), Number(this.high.value)]));
    }
    this.find('.main').addEventListener('click', () => this.slide(this.info && this.info.percentiles));
    this.find('.all').addEventListener('click', () => this.slide(this.info && this.info.extent));
  }

  // Takes other limits, and draws by them once they rest.
  slide(limits) {
    if (this.info === null) return;
    this.limits = limits;
    this.showStretch();
    clearTimeout(this.slideTimer);
    this.slideTimer = setTimeout(() => { this.begin(); this.changed(); }, CALM);
  }

  showStretch() {
    [this.low, this.high].forEach((slider, number) => {
      [slider.min, slider.max] = this.info.extent;
      slider.value = this.limits[number];
      slider.nextElementSibling.value = Math.round(this.limits[number]);
    });
  }
}
