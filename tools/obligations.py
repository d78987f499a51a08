"""Takes procedures apart into their obligations: procedures of HeyVL without loops and calls, each with its place in the text.

A loop and a call are *summaries*: what precedes one needs its bound alone, an invariant or a pre, and what follows one may assume its claim
alone, an invariant or a post. So the code of an obligation begins at the start of the body, at the start of an iteration, after a loop or
after a call, and it ends at the next summaries, at the end of the iteration or at the end of the body.

Where a summary is reached in certain states only, its obligations are claimed for these states only, which a `Context` describes. So the
procedure is verified exactly where its obligations are, unless `is_exact` is false: after an `assert` or a `\\cap` of a coproc, and after
draws, rewards, a `coassert` or a `\\cup` of a proc, obligations suffice and need not be necessary.

With K copies of an iteration, K above 1, the loops and calls after the first copy stay as they are."""
import conditions
from contexts import Context, relevant
from expressions import (
    ATOM, LEVELS, Expression, Source, Symbol, all_of, choice, joined, not_of, of_symbol, pieces_of, plain, resolved, same, symbols_of,
    variables_of)
from obligation_code import CodeWriter, Mark
from summaries import after_copy, assigned, copies_of, has_summaries, invariant_of, live

MOST_NAMES = 16
NOTHING = {True: plain("\\infty", "EUReal"), False: plain("0", "UInt")}


class Obligation:
    """An obligation.

    `kind` is `bound`, `iteration`, `exit`, `call`, `ranking` or `weak`, `goal` the goal of `verify` to which it belongs, `place` its place in
    the source, `label` its name there and `claim` what it claims; `name` is that of its procedure of HeyVL. This has `inputs`, `outputs`,
    `pres`, `posts` and `lines`, and calls the procedures `called`. `shown` gives its names those of the source. Of its inputs, those in `known` are variables at the place, and
    the others are values on which the context depends. The variables in `hidden` have a value that does not matter."""

    def __init__(self, procedure, kind, place, label, claim, goal="bound"):
        self.procedure, self.kind, self.goal, self.place, self.label, self.claim = procedure, kind, goal, place, label, claim
        self.is_exact, self.is_upper = True, procedure.is_upper or kind in ("ranking", "weak")
        self.name, self.hint = "", label.replace(",", "").replace("call of", "call").replace(" ", "_")
        self.inputs, self.outputs, self.shown, self.known, self.hidden = [], [], {}, set(), set()
        self.pres, self.posts, self.lines, self.called = [], [], [], set()

    def add_input(self, name, type_name, shown, is_known=True):
        self.inputs.append((name, type_name))
        self.shown[name] = shown
        self.known.update([name] * is_known)

    def is_wide(self):
        """Whether a procedure may not have that many inputs and outputs."""
        return len(self.inputs) + len(self.outputs) > MOST_NAMES

    def pieces(self, is_wide):
        """Returns the text; a wide one chooses its inputs at the beginning of its body."""
        inputs, co = [] if is_wide else self.inputs, "co" * self.is_upper
        lines = [pieces_of(f"{co}proc {self.name}({typed(inputs)}) -> ({typed(self.outputs)})")]
        lines += [pieces_of("  pre ", pre.pieces) for pre in self.pres if not is_wide]
        lines += [pieces_of("  post ", post.pieces) for post in self.posts] + [pieces_of("{")]
        if is_wide:
            lines += [pieces_of(f"  var {name}: {type_name}") for name, type_name in self.inputs]
            lines += [pieces_of(f"  {co}validate"), pieces_of(f"  {co}assume ", joined(self.pres, self.is_upper).pieces)]
        return [piece for line in [*lines, *self.lines, pieces_of("}")] for piece in (*line, ("\n", None))]

    def written(self, is_wide):
        """Returns the text, pairs of places in it and in the source, and its marks by their places."""
        text, size, origins, marks = [], 0, [], {}
        for piece in self.pieces(is_wide):
            if isinstance(piece, Mark):
                marks[size] = piece
                continue
            if piece[1] is not None:
                origins.append((size, piece[1]))
            text.append(piece[0])
            size += len(piece[0])
        return "".join(text), origins, marks


def typed(names):
    return ", ".join(f"{name}: {type_name}" for name, type_name in names)


class Start:
    """Where the code of an obligation may begin: the context, the types of the visible variables, and the guard that holds there or does not hold,
    if there is one."""

    def __init__(self, context, scope, guard=None, is_held=True):
        self.context, self.scope, self.guard, self.is_held = context, scope, guard, is_held


class Decomposition:
    """Takes one procedure apart."""

    def __init__(self, source, procedure):
        self.source, self.procedure, self.found = source, procedure, []
        self.is_upper, self.word = procedure.is_upper, "least" if procedure.is_upper else "most"
        self.types = dict([*map(tuple, procedure.inputs), *map(tuple, procedure.outputs)])
        statements = list(conditions.statements_of(procedure.body))
        self.loops, self.scopes, self.calls = [s for s in statements if s[0] == "while"], {}, 0
        for number, loop in enumerate(self.loops, 1):
            loop.number, loop.label = number, f"the invariant of loop {number} ({source.position(loop.start)})"
        self.has_calls = any(s[0] == "call" for s in statements)
        for call in (s for s in statements if s[0] == "call"):
            call.label = f"the pre of {call[2]} ({source.position(call.start)})"

    def obligations(self):
        """Returns the obligations in the order of the text."""
        procedure = self.procedure
        values = {name: of_symbol(Symbol(name, type_name)) for name, type_name in self.types.items()}
        context = Context(self.source, self.is_upper, values)
        if procedure.pres:
            context = context.limited(joined([context.of(pre) for pre in procedure.pres], self.is_upper))
        self.bound()
        self.walk(procedure.body, [], Start(context, self.types))
        for loop in self.loops:
            if "ranking" in loop[1]:
                self.ranking(loop)
        if procedure.is_weak:
            self.at_most_one()
        return sorted(self.found, key=lambda obligation: obligation.place)

    def place_of(self, kind):
        """Returns the place of the first clause of a kind, else of the procedure's name."""
        return next((clause.start for clause in self.procedure.clauses if clause[0] == kind), self.procedure.name_start)

    def bound(self):
        """Adds the claim on the pre."""
        procedure, reached = self.procedure, assigned(self.procedure.body)[1]
        is_plain, claim = not has_summaries(procedure.body), f"the pre is at {self.word} what the body gives"
        if not is_plain:
            loop = ["each loop counts as its invariant"] * bool(self.loops)
            call = [f"each call{' counts' * (not loop)} as the pre of what it calls"] * self.has_calls
            claim += f", where {' and '.join(loop + call)}"
        found = Obligation(procedure, "bound", self.place_of("pre"), "bound" if is_plain else "start", claim)
        found.inputs, found.outputs = list(map(tuple, procedure.inputs)), list(map(tuple, procedure.outputs))
        found.hint, found.shown = "start", {name: name for name in self.types}
        found.known = {name for name, _ in procedure.inputs} | live(procedure.body, self.reads_after(reached))
        names = {name: plain(name, type_name) for name, type_name in self.types.items()}
        found.pres = [self.source.expression(pre, names) for pre in procedure.pres]
        self.fill(found, CodeWriter(self.source, procedure, names), procedure.body, names, reached)

    def reads_after(self, reached):
        """Returns the variables of the post, where the end of the body is reached."""
        return variables_of(self.procedure.posts) if reached else set()

    def fill(self, obligation, code, items, names, reached):
        """Gives an obligation its post and its code."""
        obligation.posts = self.posts(code, names) if reached else []
        code.write(items, names, 1, not obligation.posts)
        obligation.lines += code.lines
        obligation.called |= code.called
        obligation.shown.update(code.shown)
        self.found.append(obligation)

    def posts(self, code, names):
        """Returns the post clauses; their quantified variables get new names."""
        found, visible = [], {name: names[name] for name in self.types if name in names}
        for post in self.procedure.posts:
            inner, node = dict(visible), post
            while node[0] == "bind":
                inner[node[2]] = plain(code.fresh(node[2]), node[1])
                node = node[3]
            found.append(self.source.expression(post, inner))
        return found

    def walk(self, block, follow, start):
        """Takes the loops and calls of a block apart, which the items `follow` follow; returns the context after the block."""
        context, scope = start.context, dict(start.scope)
        for number, statement in enumerate(block):
            kind, rest = statement[0], [*block[number + 1:], *follow]
            if kind == "declare":
                scope[statement[1]] = statement[2]
            if kind == "while":
                context = self.loop(statement, rest, context, scope)
            elif kind == "call":
                context = self.call(statement, rest, context, scope)
            elif kind == "if" and has_summaries([statement]):
                context = self.arms(statement[1], statement[2], rest, Start(context, scope))
            elif kind == "pick" and has_summaries([statement]):
                context = context.blurred(not context.is_own_choice(statement[1]))
                test = of_symbol(Symbol("left", "Bool"))
                context = self.branches(test, [(statement[2], self.walk), (statement[3], self.walk)], rest, Start(context, scope))
            else:
                context = context.after([statement])
        return context

    def arms(self, arms, other, rest, start):
        """Takes the blocks of an `if` apart, and returns the context after them."""
        if not arms:
            return self.walk(other, rest, start)
        (guard, block), *more = arms

        def others(_, rest, start):
            return self.arms(more, other, rest, start)

        return self.branches(start.context.of(guard), [(block, self.walk), (None, others)], rest, start)

    def branches(self, test, ways, rest, start):
        """Takes two blocks apart by functions, and returns the context after them. The first one is entered where the test holds."""
        context, found = start.context, []
        for claim, (block, walk) in zip([test, not_of(test)], ways):
            after = walk(block, rest, Start(context.claimed(claim), start.scope))
            count = len(context.claims)
            found.append(after._replace(claims=after.claims[:count] + after.claims[count + 1:]))
        return context.merged(test, *found)

    def loop(self, loop, rest, context, scope):
        """Adds the iteration and the exit of a loop, and returns the context after it."""
        _, _, guard, block = loop
        self.scopes[loop.number] = dict(scope)
        invariant, copies = invariant_of(loop), copies_of(loop)
        rule = next(node for node in loop.rules if node[0] in ("invariant", "k_induction"))
        at = context.chosen([name for name in scope if name in conditions.targets_of(block)])
        reads = variables_of([guard, invariant])

        def bound(names):
            return self.source.expression(invariant, names)

        turns = "an iteration" if copies == 1 else f"up to {copies} iterations"
        claim = f"the invariant is at {self.word} what {turns} {'gives' if copies == 1 else 'give'}"
        iteration = Obligation(self.procedure, "iteration", rule.start, f"loop {loop.number}, iteration", claim)
        following = after_copy(loop, copies, rest, self.is_upper, "the invariant")
        self.make(iteration, Start(at, scope, guard), bound, reads, [*block, *following])
        claim = f"where the guard does not hold, the invariant is at {self.word} what follows the loop gives"
        leaving = Obligation(self.procedure, "exit", guard.start, f"loop {loop.number}, exit", claim)
        self.make(leaving, Start(at, scope, guard, False), bound, reads, rest)
        limited = at.limited(at.of(invariant))
        following = after_copy(loop, copies, rest, self.is_upper, loop.label)
        self.walk(block, following, Start(limited.claimed(at.of(guard)), scope))
        return limited.claimed(not_of(at.of(guard)))

    def call(self, statement, rest, context, scope):
        """Adds the obligation of a call, and returns the context after it. Inputs and outputs of the called procedure are variables with its
        name and a point before theirs."""
        _, targets, name, arguments = statement
        called, self.calls = self.source.called(name), self.calls + 1
        keys = {inner: f"{name}.{inner}" for inner, _ in [*called.inputs, *called.outputs]}
        types = {keys[inner]: type_name for inner, type_name in [*called.inputs, *called.outputs]}
        values = {key: of_symbol(Symbol(key, type_name)) for key, type_name in types.items()}
        claims = []
        for (inner, type_name), node in zip(called.inputs, arguments):
            value = context.of(node)
            if value.type == type_name:
                values[keys[inner]] = value
            else:
                claims.append(same(values[keys[inner]], value))
        inside = context._replace(values={**context.values, **values}).claimed(*claims)

        def post(names):
            visible = {inner: names[key] for inner, key in keys.items() if key in names}
            return joined([self.source.expression(clause, visible) for clause in called.posts], self.is_upper)

        claim = f"the post of {name} is at {self.word} what follows the call gives"
        found = Obligation(self.procedure, "call", statement.start, f"call of {name}", claim)
        found.hint = f"call_{self.calls}"
        given = [("give", [target], keys[inner]) for target, (inner, _) in zip(targets, called.outputs)]
        reads = {keys[inner] for inner in variables_of(called.posts)}
        self.make(found, Start(inside, {**scope, **types}), post, reads, [*given, *rest])
        after = inside.limited(post(values))
        for target, (inner, _) in zip(targets, called.outputs):
            after = after.given(target, values[keys[inner]])
        return after._replace(values={key: after.values[key] for key in context.values})

    def make(self, obligation, start, bound, reads, items):
        """Adds an obligation whose pre is the bound, which reads these variables, and whose code is the items."""
        context, scope = start.context, start.scope
        changed, reached = assigned(items)
        needed = live(items, self.reads_after(reached)) | reads
        code, names = CodeWriter(self.source, self.procedure), {}
        for key, type_name in scope.items():
            if key in needed:
                names[key] = plain(code.fresh(key.replace(".", "_")), type_name)
                obligation.add_input(names[key].text(), type_name, key)
        symbols, claims, limits = self.tied(obligation, code, context, names)
        obligation.is_exact = context.is_exact
        self.state_pre(obligation, [resolved(claim, symbols) for claim in claims], start, bound(names), names)
        for limit in limits:
            texts = ("!(~(", "))") if self.is_upper else ("~(!(", "))")
            pieces = pieces_of(texts[0], resolved(limit, symbols).pieces, texts[1])
            obligation.pres.append(Expression(pieces, LEVELS["!"], "EUReal"))
        self.fill(obligation, code, items, self.copied(obligation, code, scope, names, changed, reached), reached)

    def tied(self, obligation, code, context, names):
        """Returns names of symbols, claims that tie the inputs of an obligation to the context, and its limits. A symbol is named by an input that
        has its value, else by a new input."""
        symbols, claims = {}, []
        for key, name in names.items():
            value = context.values[key]
            if isinstance(value.pieces[0], Symbol) and len(value.pieces) == 1 and value.pieces[0] not in symbols:
                symbols[value.pieces[0]] = name
            else:
                claims.append(same(name, value))
        found, limits = relevant(context, [*claims, *map(of_symbol, symbols)])
        claims += found
        for symbol in (symbol for expression in [*claims, *limits] for symbol in symbols_of(expression)):
            if symbol not in symbols:
                symbols[symbol] = plain(code.fresh(symbol.hint.replace(".", "_")), symbol.type)
                obligation.add_input(symbols[symbol].text(), symbol.type, symbol.hint, False)
        return symbols, claims, limits

    def state_pre(self, obligation, claims, start, bound, names):
        """Gives an obligation the bound as its pre, where the claims and the guard allow; elsewhere nothing is claimed."""
        nothing = NOTHING[obligation.is_upper]
        test = None if start.guard is None else self.source.expression(start.guard, names)
        if test is not None and not start.is_held and not claims:
            bound = choice(test, nothing, bound)
        elif claims or test is not None:
            tests = claims + ([] if test is None else [test if start.is_held else not_of(test)])
            bound = choice(all_of(tests), bound, nothing)
        obligation.pres.append(bound)

    def copied(self, obligation, code, scope, names, changed, reached):
        """Returns the names of the variables, where each one that the code changes is a copy, whose value at the start is that of an input if
        there is one. Copies of outputs are outputs where the post is reached."""
        visible = dict(names)
        outputs = {name for name, _ in self.procedure.outputs if reached}
        for key, type_name in scope.items():
            if key not in changed:
                continue
            value, name = names.get(key), code.fresh(key)
            obligation.shown[name], visible[key] = key, plain(name, type_name)
            if value is None:
                obligation.hidden.add(name)
            if key in outputs:
                obligation.outputs.append((name, type_name))
                if value is not None:
                    obligation.lines.append(pieces_of(f"  {name} = ", value.pieces))
            else:
                first = value.pieces if value is not None else pieces_of("false" if type_name == "Bool" else "0")
                obligation.lines.append(pieces_of(f"  var {name}: {type_name} = ", first))
        return visible

    def ranking(self, loop):
        """Adds the claim on the ranking of a loop."""
        _, rules, guard, block = loop
        step, ranking = rules["ranking"]
        place, scope = next(node for node in loop.rules if node[0] == "ranking").start, self.scopes[loop.number]
        claim = "where the guard holds, the ranking is at least its step plus the ranking that an iteration gives"
        found = Obligation(self.procedure, "ranking", place, f"loop {loop.number}, ranking", claim, f"loop {loop.number}")
        items = [*block, ("end", ranking, "the ranking")]
        code = CodeWriter(self.source, self.procedure, is_ranking=True)
        needed = live(items, set()) | variables_of([guard, ranking, step])
        names = {key: plain(code.fresh(key), type_name) for key, type_name in scope.items() if key in needed}
        for key, name in names.items():
            found.add_input(name.text(), scope[key], key)
        self.state_pre(found, [], Start(None, scope, guard), self.source.expression(ranking, names), names)
        visible = self.copied(found, code, scope, names, assigned(block)[0], False)
        code.line(1, "reward ", self.source.expression(step, names).pieces)
        self.fill(found, code, items, visible, False)

    def at_most_one(self):
        """Adds the claims that the formulas of a proc with `@wlp` are at most 1."""
        procedure = self.procedure
        clauses = [("pre", self.place_of("pre"), procedure.pres, self.types), ("post", self.place_of("post"), procedure.posts, self.types)]
        clauses += [(f"invariant of loop {loop.number}", loop.start, [invariant_of(loop)], self.scopes[loop.number]) for loop in self.loops]
        for kind, place, nodes, scope in clauses:
            label = f"{kind} at most 1"
            part = Obligation(procedure, "weak", place, label, f"the {kind} is at most 1 in all states", label)
            code, names, found = CodeWriter(self.source, procedure), {}, []
            for node in nodes:
                bound = {}
                while node[0] == "bind":
                    bound[node[2]], node = node[1], node[3]
                read = variables_of(node)
                new = {key: type_name for key, type_name in scope.items() if key not in names}
                for key, type_name in {**new, **bound}.items():
                    if key in read:
                        names[key] = plain(code.fresh(key), type_name)
                        part.add_input(names[key].text(), type_name, key)
                found.append(self.source.expression(node, names))
            part.pres, part.posts = [plain("1", "UInt")], [joined(found, False)]
            self.found.append(part)


def take_apart(source, procedures):
    """Returns the obligations of procedures with bodies, in the order of the text, each with a distinct name."""
    found = [o for procedure in procedures if procedure.body is not None for o in Decomposition(source, procedure).obligations()]
    taken = set(source.words)
    for obligation in found:
        name = f"{obligation.procedure.name}_{obligation.hint}"
        while name in taken:
            name += "_"
        taken.add(name)
        obligation.name = name
    return found
