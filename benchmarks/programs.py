"""A ground program, and its two forms: the bytes of a rule table, and the text that clingo reads."""
import os
import sys
from typing import NamedTuple

sys.path.insert(0, os.path.join(os.path.dirname(os.path.abspath(__file__)), "..", "tools"))
from rule_table import KINDS, RELATIONS, table  # noqa: E402

MOST_HEADS, MOST_LITERALS_OF_A_SIGN, MOST_AGGREGATES_OF_A_RULE = 8, 32, 4
MOST_STATEMENTS, MOST_RULES, MOST_LITERALS = 128, 1024, 8192
MOST_AGGREGATES, MOST_MEMBERS_OF_A_SET, MOST_MEMBERS = 1024, 128, 2048
TRUE_OF_NOTHING = {"min": (">", ">=", "!="), "max": ("<", "<=", "!=")}  # for clingo


class Aggregate(NamedTuple):
    kind: str
    relation: str
    bound: int
    members: list  # of pairs of a statement's number and its weight


class Rule(NamedTuple):
    head: list
    positive: list
    negative: list
    aggregates: list


class Program:
    def __init__(self):
        self.names, self.rules = [], []

    def statement(self, name):
        """The number of a new statement."""
        self.names.append(name)
        return len(self.names) - 1

    def statements(self, letter, count):
        return [self.statement("%s%d" % (letter, i)) for i in range(count)]

    def rule(self, head=(), positive=(), negative=(), aggregates=()):
        self.rules.append(Rule(list(head), list(positive), list(negative), list(aggregates)))

    def never(self, positive=(), negative=(), aggregates=()):
        self.rule((), positive, negative, aggregates)

    def aggregates(self):
        return [aggregate for rule in self.rules for aggregate in rule.aggregates]

    def check_limits(self):
        """Fails where there is more of anything than the format has room for."""
        for rule in self.rules:
            assert len(rule.head) <= MOST_HEADS and len(rule.aggregates) <= MOST_AGGREGATES_OF_A_RULE
            assert max(len(rule.positive), len(rule.negative)) <= MOST_LITERALS_OF_A_SIGN
        sets = [len(aggregate.members) for aggregate in self.aggregates()]
        assert len(sets) <= MOST_AGGREGATES and sum(sets) <= MOST_MEMBERS
        assert max(sets, default=0) <= MOST_MEMBERS_OF_A_SET
        assert len(self.names) <= MOST_STATEMENTS and len(self.rules) <= MOST_RULES, (len(self.names), len(self.rules))
        assert sum(len(rule.head) + len(rule.positive) + len(rule.negative) for rule in self.rules) <= MOST_LITERALS

    def table(self):
        self.check_limits()
        rules = [(rule.head, rule.positive, rule.negative,
                  [(KINDS[a.kind], RELATIONS.index(a.relation), a.bound, a.members) for a in rule.aggregates])
                 for rule in self.rules]
        return table(self.names, rules)

    def clingo(self):
        """The same rules for clingo, and after them the order in which it decides."""
        lines = [self.clingo_rule(rule) for rule in self.rules] + self.clingo_order()
        return "".join(line + "\n" for line in lines)

    def clingo_order(self):
        """Decisions go by number, in first: statement 0 has the highest level. The priority is that of the level, so
        that of two statements which clingo finds to be one variable the earlier says which value is tried first. All
        else has level 0 and is decided later."""
        count = len(self.names)
        return ["#heuristic %s. [%d@%d,true]" % (name, count - i, count - i) for i, name in enumerate(self.names)]

    def clingo_rule(self, rule):
        head = " | ".join(self.names[s] for s in rule.head)
        body = [self.names[s] for s in rule.positive] + ["not " + self.names[s] for s in rule.negative]
        for aggregate in rule.aggregates:
            body += self.clingo_aggregate(aggregate)
        return "%s :- %s." % (head or "#false", ", ".join(body) or "#true")

    def clingo_aggregate(self, aggregate):
        """For clingo the least of no weights is beyond all numbers, and the greatest below all. Here it is no number,
        and the aggregate false; so where clingo would take it for true, it is told that there must be a member."""
        members = "; ".join("%d,%s:%s" % (w, self.names[s], self.names[s]) for s, w in aggregate.members)
        found = ["#%s{%s} %s %d" % (aggregate.kind, members, aggregate.relation, aggregate.bound)]
        if aggregate.relation in TRUE_OF_NOTHING.get(aggregate.kind, ()):
            found.append("#count{%s} >= 1" % members)
        return found
