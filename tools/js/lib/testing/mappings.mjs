// Source maps of version 3 (ECMA-426), decoded.
const DIGITS = 'ABCDEFGHIJKLMNOPQRSTUVWXYZabcdefghijklmnopqrstuvwxyz0123456789+/';
const [MORE, LOW] = [32, 31];

/** The numbers of a segment: five bits a digit, the least first, and of these the first is the sign. */
function numbersIn(segment) {
  const numbers = [];
  let [value, scale] = [0, 1];
  for (const digit of segment) {
    const bits = DIGITS.indexOf(digit);
    value += (bits & LOW) * scale;
    scale *= MORE;
    if (!(bits & MORE)) {
      numbers.push(value % 2 === 1 ? -(value - 1) / 2 : value / 2);
      [value, scale] = [0, 1];
    }
  }
  return numbers;
}

/** Where each segment of a map stands, where that stood in the source, and its old name, if it has one. */
export function segmentsOf({ mappings, names }) {
  let [line, column, name] = [0, 0, 0];
  return mappings.split(';').flatMap((segments, at) => {
    let to = 0;
    return segments.split(',').filter((segment) => segment).map((segment) => {
      const [moved, , lines, columns, other] = numbersIn(segment);
      to += moved;
      line += lines;
      column += columns;
      name += other ?? 0;
      return { written: { line: at, column: to }, read: { line, column }, name: other === undefined ? null : names[name] };
    });
  });
}
