// The page: panels side by side, which show one view, and what moves it.
import {Panel} from './panel.js';
import {NEAREST, factorOf, linkOf, viewIn, viewOf, whole, within, zoomed} from './place.js';

const STEP = 128;                                            // pixels that a key moves
const NOTCH = 60;                                            // of a wheel, for one level
const PINCH = 1.5;                                           // how far fingers go apart for one level

const settings = JSON.parse(document.body.dataset.settings);
const panels = settings.files.map(file => new Panel(file, settings, drawSoon));
let view = viewOf(location.hash);
let shown = location.hash;                                   // the link that the page has followed or has shown itself
let viewed = null;                                           // the info whose levels the view speaks of
let frame = 0, turned = 0;
const fingers = new Map();                                   // places of pointers that are down
let apart = 0;

// The panel whose levels a view speaks of: the first that can be read, once it is.
function guide() {
  const first = panels.find(panel => panel.info !== null || panel.failure === null);
  return first && first.info ? first : undefined;
}

function drawSoon() {
  if (frame === 0) frame = requestAnimationFrame(draw);
}

function draw() {
  frame = 0;
  const first = guide();
  if (first) {
    first.resize();
    if (view && viewed && hasOtherLevels(first.info, viewed)) view = viewIn(first.info, viewed, view);
    viewed = first.info;
    view = within(first.info.levels, view ?? whole(first.info.levels, first.canvas.width, first.canvas.height));
    showLink();
  }
  for (const panel of panels) panel.draw(first && first.info, view);
}

const hasOtherLevels = (one, other) => JSON.stringify(one.levels) !== JSON.stringify(other.levels);

// ---- moves

function go(next) {
  const first = guide();
  if (!first) return;
  view = within(first.info.levels, next);
  showLink();
  drawSoon();
}

// Shows the link to the view, unless another link was just given: its event has yet to come.
function showLink() {
  const link = linkOf(view);
  if (link === shown || location.hash !== shown) return;
  history.replaceState(null, '', link);
  shown = location.hash;
}

function followLink() {
  shown = location.hash;
  go(viewOf(shown) ?? view);
}

function move(across, down) {
  const factor = view ? factorOf(view.zoom) : 1;
  if (view) go({...view, x: view.x + across / factor, y: view.y + down / factor});
}

// Goes so many levels out, or in where that is negative, around a place that is given from the middle of the screen.
function zoom(count, across = 0, down = 0) {
  const first = guide();
  if (!first || !view) return;
  const next = Math.min(Math.max(view.zoom + count, NEAREST), first.info.levels.length - 1);
  if (next !== view.zoom) go(zoomed(first.info.levels, view, next, across, down));
}

function showWhole() {
  const first = guide();
  if (first) go(whole(first.info.levels, first.canvas.width, first.canvas.height));
}

// ---- keys, mouse and touch

const KEYS = {
  ArrowLeft: () => move(-STEP, 0), ArrowRight: () => move(STEP, 0), ArrowUp: () => move(0, -STEP), ArrowDown: () => move(0, STEP),
  '+': () => zoom(-1), '=': () => zoom(-1), '-': () => zoom(1), '0': showWhole, Home: showWhole,
};

function key(event) {
  const isElsewhere = event.target.matches('input') || event.ctrlKey || event.altKey || event.metaKey;
  if (isElsewhere || !Object.hasOwn(KEYS, event.key)) return;
  event.preventDefault();
  KEYS[event.key]();
}

// The place of an event from the middle of its canvas, in whole pixels.
function placeOf(event) {
  const box = event.currentTarget.getBoundingClientRect();
  return [Math.floor(event.clientX - box.left) - Math.floor(box.width / 2), Math.floor(event.clientY - box.top) - Math.floor(box.height / 2)];
}

function wheel(event) {
  event.preventDefault();
  turned += event.deltaY * (event.deltaMode === 0 ? 1 : NOTCH);
  const count = Math.trunc(turned / NOTCH);
  turned -= count * NOTCH;
  if (count !== 0) zoom(Math.sign(count), ...placeOf(event));
}

function down(event) {
  event.currentTarget.setPointerCapture(event.pointerId);
  event.currentTarget.classList.add('moves');
  fingers.set(event.pointerId, [event.clientX, event.clientY]);
  apart = distance();
}

function drag(event) {
  const before = fingers.get(event.pointerId);
  for (const panel of panels) panel.point(placeOf(event));
  if (!before) return;
  fingers.set(event.pointerId, [event.clientX, event.clientY]);
  move((before[0] - event.clientX) / fingers.size, (before[1] - event.clientY) / fingers.size);
  if (fingers.size === 2) pinch(event);
}

function pinch(event) {
  const now = distance();
  if (now > apart * PINCH || now < apart / PINCH) {
    zoom(now > apart ? -1 : 1, ...middleOf(event.currentTarget.getBoundingClientRect()));
    apart = now;
  }
}

function distance() {
  const [one, other] = fingers.values();
  return other ? Math.hypot(one[0] - other[0], one[1] - other[1]) : 0;
}

// The place between the fingers, from the middle of a canvas.
function middleOf(box) {
  const [one, other] = fingers.values();
  return [(one[0] + other[0]) / 2 - box.left - box.width / 2, (one[1] + other[1]) / 2 - box.top - box.height / 2];
}

function up(event) {
  fingers.delete(event.pointerId);
  event.currentTarget.classList.remove('moves');
  apart = distance();
}

// ---- the beginning

function lookAgain() {
  if (document.visibilityState === 'visible') panels.forEach(panel => panel.look());
  setTimeout(lookAgain, 1000 * settings.seconds);
}

function begin() {
  document.getElementById('panels').append(...panels.map(panel => panel.root));
  for (const {canvas} of panels) {
    const events = {wheel, pointerdown: down, pointermove: drag, pointerup: up, pointercancel: up};
    for (const [name, does] of Object.entries(events)) canvas.addEventListener(name, does, {passive: false});
  }
  const clicks = {out: () => zoom(1), in: () => zoom(-1), whole: showWhole, link: () => navigator.clipboard?.writeText(location.href)};
  for (const [id, does] of Object.entries(clicks)) document.getElementById(id).addEventListener('click', does);
  addEventListener('keydown', key);
  addEventListener('resize', drawSoon);
  addEventListener('hashchange', followLink);
  document.title = `${settings.files.map(file => file.name).join(', ')} - Delgunsai`;
  lookAgain();
  drawSoon();
}

begin();
