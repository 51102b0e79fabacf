let { a, b: c, d = 1, e: f = 2, 'g': h, [i]: j, 3: { k }, ...l } = source;
({ a, b: source.c, d = 1, e: source[f] = 2, ...source.rest } = source);
