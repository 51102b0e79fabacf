import json from './a.json' with { type: 'json' };
import './b.json' with { 'type': 'json', other: "more", };
import './c.js' with {};
import './with.js' /* with {} */;
export * from './d.json' with { type: 'json' };
export { e as default } from './e.json' with { type: 'json' };
use(import('./f.json', { with: { type: 'json' } }));
