// The command js2tree.
import { KIND_OPTIONS, kindOf, read } from './command.mjs';
import { envelopeOf, treeOf } from './tree.mjs';

const HELP = `usage: js2tree [--module | --script] FILE|-

JavaScript to the JSON form of docs/JSON.md: an envelope on standard output, with the
marks 1 (unresolved) and 2 (top) and a tree in which no name has a context.

  --module, --script   what the text is; left out, .mjs is a module, .cjs a script, and
                       another text a script where it can be one
  --help               this text
  -                    standard input

Spans are UTF-16 offsets plus 1. Comments are left out. A return outside of functions is
let through, as CommonJS has it.

Exit status: 0; 2 wrong usage, or something can't be read or isn't there; 4 the text has
something that the tree leaves out; 5 syntax error. Of 4 and 5 standard error says what
and where, as FILE:LINE:COLUMN, both from 1.
`;

export const js2tree = {
  name: 'js2tree',
  help: HELP,
  options: KIND_OPTIONS,
  positionals: [1, 1],
  run(values, [file]) {
    const kind = kindOf(values);
    return `${JSON.stringify(envelopeOf(treeOf(read(file), kind, file)))}\n`;
  },
};
