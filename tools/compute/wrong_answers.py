"""wrong_answers.py CHECKOUT [CALL..] [--cases N] [--seed S]: which wrong answers of a call its contract still allows.

On random inputs the answer by the rules is held against the relation that the contract says, and then answers that are wrong in one small way: of
each kind how many were tried, how many pass, and the smallest input for which one does. The calls are `print_text_with_comments`, `remarks_of`,
`source_map`, `list_changes` and `give_marked`.
"""
import argparse
import time

import comment_answers
import lawbook
import random_trees
import told_answers

CALLS = {'print_text_with_comments': comment_answers.Written, 'remarks_of': comment_answers.Chosen, 'source_map': told_answers.Mapped,
         'list_changes': told_answers.Listed, 'give_marked': told_answers.Given}


class Kind:
    """wrong answers of one kind: how many there were, how many pass, and the smallest that does"""
    def __init__(self):
        self.made, self.passed, self.smallest = 0, 0, None

    def note(self, case, answer):
        self.made += 1
        if case.holds(answer):
            self.passed += 1
            if self.smallest is None or case.size < self.smallest[0]:
                self.smallest = case.size, case.show(answer)


def tried(call, options):
    """the answers of a call on so many inputs; whether each right one passes"""
    random, end, made, refused, kinds = random_trees.Random(options.seed), time.time() + options.seconds, 0, [], {}
    while made < options.cases and time.time() < end:
        case = CALLS[call](random, CALLS[call].source_of(random, 2 + random.below(options.biggest)))
        if not case.is_one:
            continue
        made += 1
        right = case.right()
        if not case.holds(right):
            refused.append(case.show(right))
        for kind, answer in case.wrong():
            if answer != right:
                kinds.setdefault(kind, Kind()).note(case, answer)
    print('%s: %d inputs, seed %d, %d right answers are refused%s' % (call, made, options.seed, len(refused), ''.join('\n    ' + row for row in refused[:3])))
    for name, kind in sorted(kinds.items()):
        print('    %-60s %7d, %7d pass%s' % (name, kind.made, kind.passed, '\n        ' + kind.smallest[1] if kind.smallest else ''), flush=True)
    return not refused


def main():
    parser = argparse.ArgumentParser(description=__doc__, formatter_class=argparse.RawDescriptionHelpFormatter)
    parser.add_argument('checkout')
    parser.add_argument('calls', nargs='*', choices=[[], *CALLS])
    parser.add_argument('--cases', type=int, default=100)
    parser.add_argument('--seed', type=int, default=1)
    parser.add_argument('--seconds', type=float, default=300)
    parser.add_argument('--biggest', type=int, default=8, help='the rough number of nodes of a program')
    options = parser.parse_args()
    lawbook.load(options.checkout)
    good = [tried(call, options) for call in options.calls or CALLS]
    return 0 if all(good) else 1


if __name__ == '__main__':
    raise SystemExit(main())
