// Places in an image. A view is {zoom, x, y}: the middle of the screen lies at column x and row y, in pixels of the level of the zoom.
// Zooms 0, 1, .. are the levels of the file, one pixel on the screen for each of theirs. Zooms -1, -2, .. show level 0 larger.

export const NEAREST = -5;

export const levelOf = zoom => Math.max(zoom, 0);
export const factorOf = zoom => 2 ** Math.max(-zoom, 0);

// The view of a link #level/x/y, or null.
export function viewOf(link) {
  const parts = /^#(-?\d{1,2})\/(-?\d{1,7})\/(-?\d{1,7})$/.exec(link);
  return parts && {zoom: Number(parts[1]), x: Number(parts[2]), y: Number(parts[3])};
}

export const linkOf = view => `#${view.zoom}/${Math.round(view.x)}/${Math.round(view.y)}`;

// The same view within the zooms of these levels, and with its middle in the image.
export function within(levels, view) {
  const zoom = clamp(view.zoom, NEAREST, levels.length - 1);
  const moved = zoom === view.zoom ? view : zoomed(levels, view, zoom, 0, 0);
  const [width, height] = levels[levelOf(zoom)];
  return {zoom, x: clamp(moved.x, 0, width), y: clamp(moved.y, 0, height)};
}

// The view at another zoom, where what lies (across, down) screen pixels from the middle stays there.
export function zoomed(levels, view, zoom, across, down) {
  const [width, height] = levels[Math.min(levelOf(view.zoom), levels.length - 1)];
  const [newWidth, newHeight] = levels[levelOf(zoom)];
  const factor = factorOf(view.zoom), newFactor = factorOf(zoom);
  return {
    zoom,
    x: (view.x + across / factor) * newWidth / width - across / newFactor,
    y: (view.y + down / factor) * newHeight / height - down / newFactor,
  };
}

// The view of the whole image: the middle of the first level that fits into a screen of these sides, or of the smallest.
export function whole(levels, width, height) {
  const fits = levels.findIndex(sides => sides[0] <= width && sides[1] <= height);
  const zoom = fits < 0 ? levels.length - 1 : fits;
  return {zoom, x: levels[zoom][0] / 2, y: levels[zoom][1] / 2};
}

// The map coordinates of a place in pixels of level 0, and the place of map coordinates; null where there is none.
export const toMap = ([a, b, c, d, e, f], [column, row]) => [a * column + b * row + c, d * column + e * row + f];

export function fromMap([a, b, c, d, e, f], [x, y]) {
  const scale = a * e - b * d;
  return scale === 0 ? null : [(e * (x - c) - b * (y - f)) / scale, (a * (y - f) - d * (x - c)) / scale];
}

// The view of another file that shows what this one shows: by map coordinates where both are in one system, else the same part.
export function viewIn(info, guide, view) {
  if (info === guide) return view;
  const [width, height] = guide.levels[levelOf(view.zoom)];
  const [wide, high] = guide.levels[0], [otherWide, otherHigh] = info.levels[0];
  const share = [view.x / width, view.y / height];
  const step = wide / width / factorOf(view.zoom);           // pixels of level 0 for each one on the screen
  const mapped = isSameMap(info, guide) && fromMap(info.transform, toMap(guide.transform, [share[0] * wide, share[1] * high]));
  const [u, v] = mapped ? [mapped[0] / otherWide, mapped[1] / otherHigh] : share;
  const zoom = zoomOf(info.levels, step * (mapped ? sizeOf(guide) / sizeOf(info) : otherWide / wide));
  const [newWidth, newHeight] = info.levels[levelOf(zoom)];
  return {zoom, x: u * newWidth, y: v * newHeight};
}

// Whether two files are of one reference system, and of places that overlap.
function isSameMap(one, other) {
  const isSameSystem = one.crs !== null && JSON.stringify(one.crs) === JSON.stringify(other.crs);
  return isSameSystem && [0, 1].every(axis => {
    const own = sidesOf(one, axis), others = sidesOf(other, axis);
    return own[0] < others[1] && others[0] < own[1];
  });
}

// The least and the greatest map coordinate of an image, across (0) or up (1).
const sidesOf = ({bounds}, axis) => [Math.min(bounds[axis], bounds[axis + 2]), Math.max(bounds[axis], bounds[axis + 2])];
const sizeOf = ({transform: [a, b, , d, e]}) => Math.sqrt(Math.abs(a * e - b * d)) || 1;

// The zoom with the nearest number of pixels of level 0 for each one on the screen.
function zoomOf(levels, step) {
  const steps = new Map(levels.map(([width], level) => [level, levels[0][0] / width]));
  for (let zoom = NEAREST; zoom < 0; zoom++) steps.set(zoom, 1 / factorOf(zoom));
  const far = ([, own]) => Math.abs(Math.log(own / step));
  return [...steps].reduce((best, one) => far(one) < far(best) ? one : best)[0];
}

function clamp(number, least, most) {
  return Math.min(Math.max(number, least), most);
}
