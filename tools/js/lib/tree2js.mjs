// The command tree2js.
import { read } from './command.mjs';
import { print } from './print.mjs';
import { treeIn } from './tree.mjs';

const HELP = `usage: tree2js [--marks] [FILE|-]

An envelope or a bare tree (docs/JSON.md) to JavaScript on standard output. No parentheses
are written but the tree's own, so a tree without those that it needs gives a text that
means something else, or none.

  --marks   names with their contexts: a#2 has the mark 2, a#2.3 the marks 2 and 3, the
            oldest first; a name without a context is written as it is
  --help    this text
  -         standard input, as where no file is given

Exit status: 0; 2 wrong usage, or something can't be read; 3 no tree: standard error has
the path of the first thing that is wrong; 4 it nests too deeply for node.
`;

export const tree2js = {
  name: 'tree2js',
  help: HELP,
  options: { marks: { type: 'boolean' } },
  positionals: [0, 1],
  run: (values, [file = '-']) => print(treeIn(read(file)), values),
};
