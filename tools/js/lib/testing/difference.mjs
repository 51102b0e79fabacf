// Trees compared up to where things stand and how strings are written.
const PASSED_OVER = new Set(['span', 'dot3_token']);

const isPlain = (value) => value === null || typeof value !== 'object';

function keysOf(value) {
  const isString = value.type === 'Str';
  return Object.keys(value).filter((key) => !PASSED_OVER.has(key) && !(isString && key === 'raw'));
}

/** The path of the first difference of two trees and what stands there, or null. */
export function difference(left, right, path = '$') {
  if (isPlain(left) || isPlain(right)) {
    return left === right ? null : `${path}: ${JSON.stringify(left)} against ${JSON.stringify(right)}`;
  }
  const keys = keysOf(left);
  if (keys.join() !== keysOf(right).join()) {
    return `${path}: ${keys.join()} against ${keysOf(right).join()}`;
  }
  for (const key of keys) {
    const isSpread = key === 'spread'; // a span that may be absent: whether it is there counts
    const found = isSpread
      ? difference(left.spread !== null, right.spread !== null, `${path}.spread`)
      : difference(left[key], right[key], `${path}.${key}`);
    if (found) {
      return found;
    }
  }
  return null;
}
