// Labels and private names called by numbers, in the order in which they are declared.

class Numbers {
  count = 0;

  /** `known` and numbers for some texts. */
  with(known, texts) {
    return new Map([...known, ...texts.map((text) => [text, `n${(this.count += 1)}`])]);
  }
}

const privateNames = ({ body }) => [...new Set(body.filter(({ key }) => key?.type === 'PrivateName').map(({ key }) => key.name))];

/** What a node declares of both, for what stands below it. */
function declared(node, known, numbers) {
  switch (node.type) {
    case 'LabeledStmt':
      return { ...known, labels: numbers.with(known.labels, [node.label.sym]) };
    case 'Class':
      return { ...known, hidden: numbers.with(known.hidden, privateNames(node)) };
    default:
      return known;
  }
}

/** The tree itself, with each of its labels and private names called anew. */
export function numbered(tree) {
  const numbers = new Numbers();
  const stack = [[tree, { labels: new Map(), hidden: new Map() }]];
  while (stack.length > 0) {
    const [top, around] = stack.pop();
    const known = declared(top, around, numbers);
    if (top.label) {
      top.label.sym = known.labels.get(top.label.sym);
    }
    if (top.type === 'PrivateName') {
      top.name = known.hidden.get(top.name);
    }
    const below = Object.entries(top).filter(([key, value]) => value !== null && typeof value === 'object' && key !== 'label' && key !== 'span');
    stack.push(...below.map(([, value]) => [value, known]).reverse());
  }
  return tree;
}
