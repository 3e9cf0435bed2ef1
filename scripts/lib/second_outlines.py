"""A second reading of outlines, from docs/OUTLINES.md alone: the faults of an outline, the first ones first, or none. It is slow and plain. `use` at the head
isn't read: `faults_of` gives None for an outline that has one."""
import collections
import operator
import re
import sys

from second_outline_shapes import ALONE, COMPARISONS, Fault, First, MOST_NUMBER, Shape, number_of, tokens_of

# Of the language; and how many numbers a range may have.
WORDS, PARTS, ASSIGNMENTS, SHIFT, WIDTH, RANGE = 64, 32, 16, 63, 64, 1000
OPERATIONS = {
    "+": operator.add, "-": operator.sub, "band": operator.and_, "bor": operator.or_, "bxor": operator.xor, "shl": operator.lshift, "shr": operator.rshift,
    "mod": operator.mod,
}

# The third pass: meaning

# What a tree is: a number, a constant formula, a formula, or a value with its leaves, each a word or a number with the place where it stands. `reads` has each
# word that it reads, its place, and whether it is primed; `word` is the word that a value is and nothing else; `is_chosen` says that an index over words
# chooses a member in it; `place` is where it begins. What is folded away isn't in it.
Number = collections.namedtuple("Number", "value place")
Constant = collections.namedtuple("Constant", "value")
Formula = collections.namedtuple("Formula", "reads is_chosen place")
Value = collections.namedtuple("Value", "leaves reads word is_chosen place")
UNKNOWN = "unknown"

Family = collections.namedtuple("Family", "ranges words")
Word = collections.namedtuple("Word", "name shown width mark")
Let = collections.namedtuple("Let", "parameters body is_block scope")
# An argument, with the names that are known where it stands.
Argument = collections.namedtuple("Argument", "node scope")
Index = collections.namedtuple("Index", "value")


class Loose(tuple):
    """A place that the page doesn't fix."""


class Scope:
    """Names, each with what it names, and the scope around them."""

    def __init__(self, around=None, name=None, entity=None):
        self.around, self.name, self.entity = around, name, entity

    def with_name(self, name, entity):
        return Scope(self, name, entity)

    def find(self, name):
        it = self
        while it is not None:
            if it.name == name:
                return it.entity
            it = it.around
        return None


class Meaning:
    """Collects the faults of an outline that has a shape, in the order in which it is read."""

    def __init__(self):
        self.faults, self.scope, self.words = [], Scope(), {}
        self.owners, self.owned_twice, self.assigned, self.parts, self.name = {}, [], [], [], None

    def fault(self, place, says="", is_placed=True):
        if place not in [it.place for it in self.faults]:
            self.faults.append(Fault(place, says, is_placed and not isinstance(place, Loose)))
        return UNKNOWN

    def one_state(self, *found):
        """Asks that nothing is primed in what speaks of one state."""
        for _, place, is_primed in self.reads(*found):
            if is_primed:
                return self.fault(place)
        return None

    def primed(self, found, place):
        """A tree with all of its words primed."""
        if found is UNKNOWN or isinstance(found, Constant):
            return found
        if isinstance(found, Number):
            return Number(found.value, place)
        for _, at, is_primed in found.reads:
            if is_primed:
                return self.fault(at, "this is primed already, so the formula can't be primed as a whole")
        return found._replace(reads=[(word, at, True) for word, at, _ in found.reads])

    # (the outline)

    def outline(self, node):
        lets, words, items, parts = node.parts
        for it in lets:
            self.let(it)
        for it in words:
            self.declaration(it)
        seen = set()
        for it in items:
            self.item(it, seen)
        for it in parts:
            self.part(it)
        for word, place in self.owned_twice:
            self.fault(place, f"`{word.shown}` is owned by part {self.owners[word.name]} already")
        found = [(place, part, word, self.owners[word.name]) for place, part, word in self.assigned if self.owners.get(word.name, part) != part]
        # (in the order of the owners, then of the parts that assign, then of the words that are owned)
        owned = list(self.owners)
        for place, part, word, owner in sorted(found, key=lambda it: (self.parts.index(it[3]), self.parts.index(it[1]), owned.index(it[2].name))):
            self.fault(place, f"part {part} assigns `{word.shown}`, which part {owner} owns")
        return self.faults

    def is_free(self, token, scope):
        """Whether a name may be declared here."""
        if scope.find(token.text) is None:
            return True
        self.fault(token.place)
        return False

    def let(self, node):
        name, parameters, body, is_block = node.parts
        self.is_free(name, self.scope)
        seen = set()
        for it in parameters:
            if it.text in seen:
                self.fault(it.place)
            elif it.text == name.text or self.scope.find(it.text) is not None:
                self.fault(it.place)
            seen.add(it.text)
        if not is_block and not parameters:
            self.read(body, self.scope)
        self.scope = self.scope.with_name(name.text, Let([it.text for it in parameters], body, is_block, self.scope))

    def declaration(self, node):
        mark, name, ranges, width = node.parts
        self.is_free(name, self.scope)
        read = [self.range(it, self.scope, True) for it in ranges]
        found = self.number(width, self.scope)
        if found is not UNKNOWN and not 1 <= found <= WIDTH:
            found = self.fault(width.place)
        if UNKNOWN in read:
            self.scope = self.scope.with_name(name.text, UNKNOWN)
            return
        members, size = [()], 1
        for over in read:
            size *= len(over)
            if size > WORDS:
                break
            members = [(*some, it) for some in members for it in over]
        if len(self.words) + size > WORDS:
            self.fault(name.place)
            self.scope = self.scope.with_name(name.text, UNKNOWN)
            return
        family = Family(read, {})
        for it in members:
            text = "_".join([name.text, *map(str, it)])
            shown = name.text + "".join(f"[{at}]" for at in it)
            if text in self.words:
                self.fault(name.place)
            family.words[it] = self.words[text] = Word(text, shown, found, mark)
        self.scope = self.scope.with_name(name.text, family)

    def item(self, node, seen):
        if node.kind == "let":
            self.let(node)
            return
        if node.kind in ("pre", "post"):
            if node.kind in seen:
                self.fault(node.place)
            seen.add(node.kind)
        self.formula(node.parts[0], self.scope, node.kind in ("rely", "guar"))

    def part(self, node):
        name, index, heads, body = node.parts
        if index is None:
            self.member(name, name.text, heads, body, self.scope)
            return
        self.is_free(index[0], self.scope)
        over = self.range(index[1], self.scope, True)
        if over is UNKNOWN:
            # (what follows is read for no number: the names of it alone would be known)
            return
        for it in over:
            self.member(name, f"{name.text}_{it}", heads, body, self.scope.with_name(index[0].text, Index(it)))

    def member(self, token, name, heads, body, scope):
        kept, self.scope = self.scope, scope
        if name in self.parts or len(self.parts) == PARTS:
            self.fault(token.place)
        self.parts.append(name)
        self.name, seen = name, set()
        for it in heads:
            if it.kind == "owns":
                self.owns(it.parts)
            else:
                self.item(it, seen)
        self.required(body, self.scope)
        self.scope = kept

    def owns(self, nodes):
        named = [(word, node.place) for node in nodes for word in self.members(node, self.scope)]
        for word, place in named:
            if word.mark == "fixed":
                self.fault(place, f"`{word.shown}` is fixed")
            elif self.owners.get(word.name, self.name) != self.name:
                self.owned_twice.append((word, place))
            else:
                self.owners[word.name] = self.name

    def members(self, node, scope):
        """The words that an `owns` or an `unchanged` names."""
        name, indices, _ = node.parts
        entity = scope.find(name.text)
        if entity is UNKNOWN:
            return []
        if not isinstance(entity, Family):
            self.fault(node.place)
            return []
        if len(indices) > len(entity.ranges):
            self.fault(node.place)
            return []
        known = []
        for it, over in zip(indices, entity.ranges):
            found = self.read(it, scope)
            if found is UNKNOWN:
                return []
            if not isinstance(found, Number):
                self.fault(it.place, "an index must be a number that is known here, without words")
                return []
            if found.value not in over:
                self.fault(it.place)
                return []
            known.append(found.value)
        return [word for at, word in entity.words.items() if list(at[: len(known)]) == known]

    # (statements; each gives how many of the text it is)

    def required(self, items, scope):
        """Reads a block, of which something has to be left."""
        count = self.block(items, scope)
        if count == 0:
            self.fault(next(it.place for it in items if it.kind != "note"))
        return count or 1

    def block(self, items, scope):
        return sum(self.statement(it, scope) for it in items)

    def statement(self, node, scope):
        kind, parts = node.kind, node.parts
        if kind == "note":
            self.formula(parts[0], scope, False)
            return 0
        if kind == "primed use":
            self.fault(node.place)
            return 1
        if kind == "use":
            return self.used(node, scope)
        if kind == "for":
            self.is_free(parts[0], scope)
            over = self.range(parts[1], scope, False)
            if over is UNKNOWN:
                return 1
            return sum(self.block(parts[2], scope.with_name(parts[0].text, Index(it))) for it in over)
        if kind == "assign":
            self.step([node], scope)
        elif kind == "atomic":
            self.step(parts[0], scope)
        elif kind == "await":
            self.guard(parts[0], scope)
            if parts[1] is not None:
                self.step(parts[1], scope)
            elif all(it.mark == "fixed" for it in self.words.values()):
                self.fault(node.place)
        elif kind == "if":
            self.guard(parts[0], scope)
            self.required(parts[1], scope)
            if parts[2] is not None:
                self.required(parts[2], scope)
        elif kind == "while":
            self.guard(parts[0], scope)
            if parts[1] is not None:
                self.formula(parts[1], scope, False)
            self.required(parts[2], scope)
        return 1

    def used(self, node, scope):
        name, given = node.parts
        entity = scope.find(name.text)
        if entity is UNKNOWN:
            return 1
        if not isinstance(entity, Let) or not entity.is_block or len(entity.parameters) != len(given):
            self.fault(node.place)
            return 1
        return self.block(entity.body, self.given(entity, given, scope, node.place))

    def given(self, entity, given, scope, place=None):
        """The names that are known in a body with these arguments; each is read where it is given, whether its parameter is used or not."""
        inner, has_chosen = entity.scope, False
        for parameter, it in zip(entity.parameters, given):
            has_chosen = getattr(self.read(it, scope), "is_chosen", False) or has_chosen
            inner = inner.with_name(parameter, Argument(it, scope))
        if has_chosen and place is not None:
            self.fault(place, "statements aren't given a member that an index over words chooses")
        return inner

    def guard(self, node, scope):
        self.aux_free(self.formula(node, scope, False))

    def aux_free(self, found):
        """Asks that no auxiliary word is read in a tree, which is reported where what is left of it begins."""
        if any(word.mark == "aux" for word, _, _ in self.reads(found)):
            self.fault(found.place)

    def step(self, assignments, scope):
        count = 0
        for it in assignments:
            before = count
            count += self.assignment(it, scope)
            if count > ASSIGNMENTS >= before:
                chosen = f"this makes {count} assignments in one step, one for each member that the index can choose"
                self.fault(it.place, chosen if count - before > 1 else "")

    def assignment(self, node, scope):
        """Reads an assignment; gives how many it is in the text."""
        target, value = node.parts
        found, choosing, at = self.target(target, scope)
        self.one_state(choosing)
        if found and found[0].mark == "fixed":
            self.fault(target.place)
        read = self.value(value, scope)
        self.one_state(read)
        if not found:
            return 1
        self.assigned += [(target.place, self.name, word) for word in found]
        if read is not UNKNOWN:
            self.group([("word", found[0], target.place), *self.leaves(read)], node.place)
        if found[0].mark != "aux":
            self.aux_free(read)
            self.aux_free(choosing)
        if {it.name for it in found} & {it.name for it, _, _ in self.reads(choosing)}:
            self.fault(at)
        return len(found)

    def target(self, node, scope):
        """The words that an assignment may change, and the index over words by which they are chosen."""
        name, indices, _ = node.parts
        entity = scope.find(name.text)
        if isinstance(entity, Argument) and not indices:
            read = self.read(entity.node, entity.scope)
            if isinstance(read, Value) and read.word is not None and not read.reads[0][2]:
                return [read.word], None, None
        if entity is UNKNOWN:
            return [], None, None
        if not isinstance(entity, Family):
            self.fault(node.place)
            return [], None, None
        if len(indices) != len(entity.ranges):
            self.fault(node.place)
            return [], None, None
        chosen = self.chosen(entity, indices, scope)
        if chosen is UNKNOWN:
            return [], None, None
        return chosen

    def chosen(self, family, indices, scope):
        """The members that indices choose, and the index over words, if there is one, with its place."""
        known, over_words, at = [], None, None
        is_known = True
        for it, over in zip(indices, family.ranges):
            found = self.value(it, scope)
            if found is UNKNOWN:
                is_known = False
            elif isinstance(found, Number):
                if found.value not in over:
                    self.fault(it.place)
                    is_known = False
                known.append([found.value])
            else:
                if over_words is not None:
                    self.fault(it.place, "one index of a family may read words")
                    return UNKNOWN
                over_words, at = found, it.place
                width = self.group(found.leaves, it.place)
                if width is UNKNOWN:
                    is_known = False
                    continue
                fitting = [number for number in over if number < 2**width]
                if not fitting:
                    self.fault(it.place)
                    is_known = False
                known.append(fitting)
        if not is_known:
            return UNKNOWN
        members = [()]
        for over in known:
            members = [(*some, number) for some in members for number in over]
        return [family.words[it] for it in members], over_words, at

    # (formulas and values)

    def formula(self, node, scope, two_states):
        found = self.a_formula(node, scope)
        if not two_states:
            self.one_state(found)
        return found

    def a_formula(self, node, scope):
        found = self.read(node, scope)
        if isinstance(found, (Number, Value)):
            return self.fault(node.place, "a formula is wanted here, not a value")
        return found

    def value(self, node, scope):
        found = self.read(node, scope)
        if isinstance(found, (Constant, Formula)):
            return self.fault(node.place, "a value is wanted here, not a formula")
        return found

    def number(self, node, scope):
        found = self.read(node, scope)
        if found is UNKNOWN:
            return UNKNOWN
        if not isinstance(found, Number):
            return self.fault(node.place)
        return found.value

    def range(self, node, scope, is_of_family):
        """The numbers of a range, in order: of a family there have to be some, and none below 0."""
        low, high, others = node.parts
        low, high = self.number(low, scope), self.number(high, scope)
        others = [self.number(it, scope) for it in others]
        if UNKNOWN in (low, high, *others):
            return UNKNOWN
        if high - low + 1 > RANGE:
            return self.fault(node.place)
        found = [it for it in range(low, high + 1) if it not in others]
        if is_of_family and (not found or found[0] < 0):
            return self.fault(node.place)
        return found

    @staticmethod
    def reads(*found):
        return [read for it in found for read in getattr(it, "reads", ())]

    @staticmethod
    def is_chosen(*found):
        return any(getattr(it, "is_chosen", False) for it in found)

    def of_both(self, one, other, place):
        return Formula(self.reads(one, other), self.is_chosen(one, other), place)

    @staticmethod
    def leaves(found):
        return [("number", found.value, found.place)] if isinstance(found, Number) else found.leaves

    def group(self, leaves, place):
        """Asks that leaves have one width, which it gives."""
        first = next((it for kind, it, _ in leaves if kind == "word"), None)
        if first is None:
            return self.fault(place, "no word stands here, so nothing tells the width: compare with a word that is wide enough, or say it without numbers")
        width = first.width
        if width is UNKNOWN:
            return UNKNOWN
        for kind, it, at in leaves:
            if kind == "word" and it.width is UNKNOWN:
                return UNKNOWN
            if kind == "word" and it.width != width:
                return self.fault(at, f"`{it.shown}` has {it.width} bit")
            if kind == "number" and not 0 <= it < 2**width:
                return self.fault(at)
        return width

    def read(self, node, scope):
        return getattr(self, f"read_{node.kind}")(node, scope)

    def read_number(self, node, scope):
        return Number(number_of(node.parts[0]), node.place)

    def read_true(self, node, scope):
        return Constant(True)

    def read_false(self, node, scope):
        return Constant(False)

    def read_inner(self, node, scope):
        return self.read(node.parts[0], scope)

    def read_inv(self, node, scope):
        found = self.value(node.parts[0], scope)
        if found is UNKNOWN:
            return UNKNOWN
        return Value(self.leaves(found), self.reads(found), None, self.is_chosen(found), node.place)

    def read_not(self, node, scope):
        found = self.a_formula(node.parts[0], scope)
        return Constant(not found.value) if isinstance(found, Constant) else found if found is UNKNOWN else found._replace(place=node.place)

    def read_keeps(self, node, scope):
        found = self.a_formula(node.parts[0], scope)
        if found is UNKNOWN or isinstance(found, Constant):
            return UNKNOWN if found is UNKNOWN else Constant(True)
        primed = self.primed(found, node.place)
        return UNKNOWN if primed is UNKNOWN else self.of_both(found, primed, node.place)

    def read_unchanged(self, node, scope):
        is_all, words = node.parts
        named = []
        for it in words:
            named += self.members(it, scope)
        if is_all:
            left = {word.name for word in named}
            named = [word for word in self.words.values() if word.mark != "fixed" and word.name not in left]
        return Formula([(word, node.place, True) for word in named], False, node.place) if named else Constant(True)

    def both(self, node, scope):
        return self.a_formula(node.parts[0], scope), self.a_formula(node.parts[1], scope)

    def joined(self, one, other, absorbing, place):
        """The conjunction (or disjunction, where `true` absorbs) of two formulas."""
        if Constant(absorbing) in (one, other):
            return Constant(absorbing)
        if UNKNOWN in (one, other):
            return UNKNOWN
        if isinstance(one, Constant):
            return other
        if isinstance(other, Constant):
            return one
        return self.of_both(one, other, place)

    def read_and(self, node, scope):
        return self.joined(*self.both(node, scope), False, node.place)

    def read_or(self, node, scope):
        return self.joined(*self.both(node, scope), True, node.place)

    def read_implies(self, node, scope):
        one, other = self.both(node, scope)
        return self.joined(Constant(not one.value) if isinstance(one, Constant) else one, other, True, node.place)

    def read_iff(self, node, scope):
        one, other = self.both(node, scope)
        if UNKNOWN in (one, other):
            return UNKNOWN
        if isinstance(one, Constant) and isinstance(other, Constant):
            return Constant(one.value == other.value)
        if isinstance(one, Constant):
            return other
        return one if isinstance(other, Constant) else self.of_both(one, other, node.place)

    def quantified(self, node, scope, absorbing):
        name, over, body = node.parts
        self.is_free(name, scope)
        over = self.range(over, scope, False)
        if over is UNKNOWN:
            return UNKNOWN
        found = Constant(not absorbing)
        for it in over:
            found = self.joined(found, self.a_formula(body, scope.with_name(name.text, Index(it))), absorbing, node.place)
        return found

    def read_all(self, node, scope):
        return self.quantified(node, scope, False)

    def read_some(self, node, scope):
        return self.quantified(node, scope, True)

    def read_compare(self, node, scope):
        sign, one, other = node.parts
        one, other = self.value(one, scope), self.value(other, scope)
        if UNKNOWN in (one, other):
            return UNKNOWN
        if isinstance(one, Number) and isinstance(other, Number):
            return Constant(COMPARISONS[sign](one.value, other.value))
        if self.group(self.leaves(one) + self.leaves(other), node.place) is UNKNOWN:
            return UNKNOWN
        return self.of_both(one, other, node.place)

    def read_operation(self, node, scope):
        sign, one, other = node.parts
        one, other = self.value(one, scope), self.value(other, scope)
        if UNKNOWN in (one, other):
            return UNKNOWN
        return self.operated(sign, one, other, node.place)

    def operated(self, sign, one, other, place):
        are_numbers = isinstance(one, Number) and isinstance(other, Number)
        if sign in ALONE:
            if not isinstance(other, Number):
                return self.fault(place)
            if not 0 <= other.value <= SHIFT:
                return self.fault(place)
            if not are_numbers:
                return one._replace(word=None, place=place)
        if sign == "mod":
            if not are_numbers:
                return self.fault(place)
            if other.value <= 0:
                return self.fault(place)
        if not are_numbers:
            return Value(self.leaves(one) + self.leaves(other), self.reads(one, other), None, self.is_chosen(one, other), place)
        one, other = one.value, other.value
        found = OPERATIONS[sign](one, other)
        if abs(found) > MOST_NUMBER:
            return self.fault(place)
        return Number(found, place)

    def read_sum(self, node, scope):
        name, over, body = node.parts
        self.is_free(name, scope)
        over = self.range(over, scope, False)
        if over is UNKNOWN:
            return UNKNOWN
        found = None
        for it in over:
            one = self.value(body, scope.with_name(name.text, Index(it)))
            if one is UNKNOWN or found is UNKNOWN:
                found = UNKNOWN
            else:
                found = one if found is None else self.operated("+", found, one, node.place)
        return Number(0, node.place) if found is None else found

    def read_choice(self, node, scope):
        test, one, other = node.parts
        test = self.a_formula(test, scope)
        one, other = self.value(one, scope), self.value(other, scope)
        if test is UNKNOWN:
            return UNKNOWN
        if isinstance(test, Constant):
            return one if test.value else other
        if UNKNOWN in (one, other):
            return UNKNOWN
        return Value(self.leaves(one) + self.leaves(other), self.reads(test, one, other), None, self.is_chosen(test, one, other), node.place)

    def read_word(self, node, scope):
        name, indices, is_marked = node.parts
        return self.named(node.place, name, indices, [], is_marked, scope)

    def read_called(self, node, scope):
        name, given, is_marked = node.parts
        return self.named(node.place, name, [], given, is_marked, scope)

    def named(self, place, name, indices, given, is_marked, scope):
        entity = scope.find(name.text)
        if entity is UNKNOWN:
            return UNKNOWN
        if entity is None:
            return self.fault(place)
        if isinstance(entity, Index):
            if indices or given or is_marked:
                return self.fault(place)
            return Number(entity.value, place)
        if isinstance(entity, Family):
            if given or len(indices) != len(entity.ranges):
                return self.fault(place)
            return self.word(entity, place, indices, is_marked, scope)
        if indices or isinstance(entity, Argument) and given:
            return self.fault(place)
        if isinstance(entity, Argument):
            found = self.read(entity.node, entity.scope)
            if is_marked and isinstance(found, Number):
                return self.fault(place)
            # (what is primed may be reported where the parameter or where the argument stands)
            if isinstance(found, (Formula, Value)):
                found = found._replace(reads=[(word, Loose(at), is_primed) for word, at, is_primed in found.reads])
        else:
            if entity.is_block or len(entity.parameters) != len(given):
                return self.fault(place)
            found = self.read(entity.body, self.given(entity, given, scope))
        if is_marked:
            found = self.primed(found, place)
        return self.placed(found, place)

    @staticmethod
    def placed(found, place):
        """A number and one word stand where the name or the parameter does that stands for them."""
        if isinstance(found, Number):
            return Number(found.value, place)
        if isinstance(found, Value) and found.word is not None:
            leaves = [(kind, it, place) for kind, it, _ in found.leaves]
            reads = [(word, at if isinstance(at, Loose) else place, is_primed) for word, at, is_primed in found.reads]
            return found._replace(leaves=leaves, reads=reads, place=place)
        return found

    def word(self, family, place, indices, is_marked, scope):
        chosen = self.chosen(family, indices, scope)
        if chosen is UNKNOWN:
            return UNKNOWN
        words, index, _ = chosen
        reads = self.reads(index) + [(word, place, False) for word in words]
        found = Value([("word", it, place) for it in words], reads, words[0] if len(words) == 1 and index is None else None, index is not None, place)
        return self.primed(found, place) if is_marked else found


# What the program says where a limit of the text is met that an outline is expanded to, which isn't made here.
LIMITS = re.compile("the text that the outline stands for has more than|what this stands for is nested too deeply")


def faults_of(source):
    """The faults of an outline: of its tokens, or of its shape, the first; of its meaning all that were met, in the order in which it is read; none where it is
    read. None where it has a `use` at its head, which isn't read here."""
    if re.match(rb"(?:\xef\xbb\xbf)?(?:[ \t\r\n]+|#[^\n]*)*use(?![A-Za-z0-9_])", source):
        return None
    sys.setrecursionlimit(20_000)
    try:
        tree = Shape(tokens_of(source)).outline()
    except First as it:
        return [it.fault]
    return Meaning().outline(tree)


def agreement(source, told):
    """How an answer agrees with the reading of an outline: `told` is None where it was read, or the line, the column and the sentence that were told. Gives a
    word of what was compared, or `wrong`; and what the reading says."""
    faults = faults_of(source)
    if faults is None:
        return "not compared", "a `use`"
    if not faults:
        if told is None:
            return "read", "read"
        return ("refused for a limit" if LIMITS.match(told[2]) else "wrong"), "read"
    wanted = faults[0]
    says = f"{wanted.place[0]}:{wanted.place[1]}: {wanted.says or '..'}" if wanted.is_placed else "a fault"
    if told is None:
        return "wrong", says
    if not wanted.is_placed:
        return "refused", says
    if tuple(told[:2]) != wanted.place or not told[2].startswith(wanted.says):
        return "wrong", says
    return "refused with its place and sentence" if wanted.says else "refused with its place", says
