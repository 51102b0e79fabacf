"""Laws of comments that are written with a tree, and of what `mucwathi` tells of a text: the answer by the rules is one that the contract allows."""
import comment_answers
import told_answers
from lawbook import Bad, law
from text_kept_laws import clean_source
from text_laws import own_random
from texts import leafy_program


def fault_of(kind_of_case, t):
    """None where a tree is no such case"""
    case = kind_of_case(own_random(t), t) if t else None
    if case is None or not case.is_one:
        return None
    return case.holds(case.right()) or Bad(case.show(case.right()))


@law(leafy_program)
def comments_are_written(t):
    """what is written with comments by the rules is a text with them, and the others are told"""
    return fault_of(comment_answers.Written, t)


@law(leafy_program)
def comments_are_chosen(t):
    """each comment of a text stands by the rules at one of the nodes round it"""
    return fault_of(comment_answers.Chosen, t)


@law(clean_source)
def maps_tell_of_nodes(t):
    """a source map by the rules is that of what was written"""
    return fault_of(told_answers.Mapped, t)


@law(clean_source)
def lists_tell_of_changes(t):
    """the names that differ by place are those that are given anew"""
    return fault_of(told_answers.Listed, t)


@law(clean_source)
def marks_are_read(t):
    """a text with marks behind its names, without them, is what was given"""
    return fault_of(told_answers.Given, t)
