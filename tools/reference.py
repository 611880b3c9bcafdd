#!/usr/bin/env python3
"""An interpreter of its own for programs of the language, written from docs/LANGUAGE.md and docs/RUN.md alone.

reference.py FILE prints what `chocola run FILE` has to print, and ends with the status that it has to end with. It settles
what one thread settles first: a fork is done where it is made, and messages wait until no unit is left. It knows no limits
and no refusals: it is for programs that are accepted and come to their end, such as the examples.

`effects_of` goes by the entries of a trace instead, and tells what each of them did."""
import functools
import sys
import threading

FAULTS = "WrongType DivideByZero Overflow Index NoTransaction NoTurn FutureEscapes ForkTooDeep TooDeep MessageArity".split()


class Fault(Exception):
    pass


class Recur(Exception):
    pass


class Word(str):
    """A keyword, by its name without the colon."""


class Symbol(str):
    pass


class Thing:
    """A ref, an actor or a future, by its name."""

    def __init__(self, kind, name):
        self.kind, self.name = kind, name

    def __eq__(self, other):
        return isinstance(other, Thing) and (self.kind, self.name) == (other.kind, other.name)

    def __hash__(self):
        return hash((self.kind, self.name))


class Form(list):
    def __init__(self, kind, items=()):
        super().__init__(items)
        self.kind = kind


# ---- reading

ESCAPES = {"n": "\n", "t": "\t", "r": "\r", "f": "\f", "b": "\b", '"': '"', "\\": "\\"}


def tokens(text):
    at = 0
    while at < len(text):
        c = text[at]
        if c in " ,\t\n\r\v\f":
            at += 1
        elif c == ";":
            at = text.find("\n", at) if "\n" in text[at:] else len(text)
        elif c in "()[]{}@":
            yield c
            at += 1
        elif c == '"':
            said, at = "", at + 1
            while text[at] != '"':
                if text[at] == "\\":
                    said, at = said + ESCAPES[text[at + 1]], at + 2
                else:
                    said, at = said + text[at], at + 1
            yield ("text", said)
            at += 1
        else:
            end = at
            while end < len(text) and text[end] not in ' ,\t\n\r\v\f()[]{}@";':
                end += 1
            yield text[at:end]
            at = end


def atom(word):
    constants = {"nil": None, "true": True, "false": False}
    if word in constants:
        return constants[word]
    if word.startswith(":"):
        return Word(word[1:])
    try:
        return int(word)
    except ValueError:
        return Symbol(word)


def read(text):
    kinds, ends = {"(": "list", "[": "vector", "{": "map"}, (")", "]", "}")
    open_forms = [Form("top")]

    def close(form):
        open_forms[-1].append(form)
        while open_forms[-1].kind == "at":
            at = open_forms.pop()
            open_forms[-1].append(Form("list", [Symbol("deref"), at[0]]))

    for token in tokens(text):
        if isinstance(token, tuple):
            close(token[1])
        elif token in kinds:
            open_forms.append(Form(kinds[token]))
        elif token in ends:
            close(open_forms.pop())
        elif token == "@":
            open_forms.append(Form("at"))
        else:
            close(atom(token))
    return open_forms[0]


# ---- values

def same(a, b):
    if isinstance(a, bool) or isinstance(b, bool) or type(a) is not type(b):
        return a is b
    if isinstance(a, tuple):
        return len(a) == len(b) and all(map(same, a, b))
    if isinstance(a, dict):
        return list(a) == list(b) and all(same(a[key], b[key]) for key in a)
    return a == b


def key_of(value):
    """A key of a map: its kind in the order of kinds, and what is compared inside it."""
    if isinstance(value, bool):
        return (0, value)
    if isinstance(value, int):
        return (1, value)
    if isinstance(value, Word):
        return (2, str(value))
    if isinstance(value, str):
        return (3, str(value))
    return None


def value_of(key):
    return Word(key[1]) if key[0] == 2 else key[1]


def put(pairs, key, value):
    if key_of(key) is None:
        raise Fault(1)
    return dict(sorted({**pairs, key_of(key): value}.items()))


def text_of(value, readable):
    if value is None:
        return "nil"
    if isinstance(value, bool):
        return "true" if value else "false"
    if isinstance(value, int):
        return str(value)
    if isinstance(value, Word):
        return ":" + value
    if isinstance(value, str):
        if not readable:
            return value
        marks = {end: "\\" + mark for mark, end in ESCAPES.items()}
        return '"' + "".join(marks.get(c, c) for c in value) + '"'
    if isinstance(value, tuple):
        return "[" + " ".join(text_of(item, readable) for item in value) + "]"
    if isinstance(value, dict):
        return "{" + ", ".join(text_of(value_of(k), readable) + " " + text_of(v, readable) for k, v in value.items()) + "}"
    return f"#<{value.kind}>"


def holds_future(value):
    if isinstance(value, Thing):
        return value.kind == "future"
    parts = value if isinstance(value, tuple) else value.values() if isinstance(value, dict) else ()
    return any(map(holds_future, parts))


# ---- primitives

def ints(args):
    if not all(isinstance(n, int) and not isinstance(n, bool) for n in args):
        raise Fault(1)
    return args


def small(n):
    if not -(2 ** 63) <= n < 2 ** 63:
        raise Fault(3)
    return n


def folded(step, first):
    return lambda *args: functools.reduce(lambda a, b: small(step(a, b)), ints(args), first)


def minus(first, *more):
    ints((first, *more))
    return functools.reduce(lambda a, b: small(a - b), more, first) if more else small(-first)


def divided(rule):
    def go(a, b):
        ints((a, b))
        if b == 0:
            raise Fault(2)
        return small(rule(a, b))
    return go


def quot(a, b):
    return abs(a) // abs(b) * (1 if (a < 0) == (b < 0) else -1)


def ordered(test):
    return lambda *args: all(map(test, ints(args), args[1:]))


def collection(value, *kinds):
    if not isinstance(value, kinds) and not (value is None and dict in kinds):
        raise Fault(1)
    return value


def is_int(value):
    return isinstance(value, int) and not isinstance(value, bool)


def get(coll, key, default=None):
    if isinstance(coll, tuple):
        return coll[key] if is_int(key) and 0 <= key < len(coll) else default
    return (collection(coll, dict) or {}).get(key_of(key), default)


def nth(items, index, *default):
    if not isinstance(items, tuple):
        raise Fault(1)
    ints((index,))
    if 0 <= index < len(items):
        return items[index]
    if default:
        return default[0]
    raise Fault(4)


def assoc(coll, *args):
    for key, value in zip(args[::2], args[1::2]):
        if isinstance(coll, tuple):
            ints((key,))
            if not 0 <= key <= len(coll):
                raise Fault(4)
            coll = coll[:key] + (value,) + coll[key + 1:]
        else:
            coll = put(collection(coll, dict) or {}, key, value)
    return coll


def dissoc(coll, *keys):
    collection(coll, dict)
    gone = set(map(key_of, keys))
    return None if coll is None else {key: value for key, value in coll.items() if key not in gone}


def subvec(items, start, end=None):
    if not isinstance(items, tuple):
        raise Fault(1)
    end = len(items) if end is None else end
    ints((start, end))
    if not 0 <= start <= end <= len(items):
        raise Fault(4)
    return items[start:end]


def vector(value, or_nil=True):
    if not (isinstance(value, tuple) or value is None and or_nil):
        raise Fault(1)
    return value or ()


def of_str(*args):
    return "".join("" if a is None else a if isinstance(a, str) and not isinstance(a, Word) else text_of(a, True) for a in args)


def alike(*args):
    return all(same(args[0], other) for other in args[1:])


PRIMITIVES = {
    "+": folded(lambda a, b: a + b, 0), "*": folded(lambda a, b: a * b, 1), "-": minus,
    "inc": lambda n: small(ints((n,))[0] + 1), "dec": lambda n: small(ints((n,))[0] - 1),
    "max": lambda *args: max(ints(args)), "min": lambda *args: min(ints(args)),
    "quot": divided(quot), "rem": divided(lambda a, b: a - b * quot(a, b)), "mod": divided(lambda a, b: a % b),
    "<": ordered(lambda a, b: a < b), "<=": ordered(lambda a, b: a <= b),
    ">": ordered(lambda a, b: a > b), ">=": ordered(lambda a, b: a >= b),
    "=": alike, "not=": lambda *args: not alike(*args), "not": lambda a: a is None or a is False,
    "zero?": lambda n: ints((n,))[0] == 0, "pos?": lambda n: ints((n,))[0] > 0, "neg?": lambda n: ints((n,))[0] < 0,
    "nil?": lambda a: a is None, "some?": lambda a: a is not None, "int?": is_int,
    "string?": lambda a: isinstance(a, str) and not isinstance(a, Word), "keyword?": lambda a: isinstance(a, Word),
    "boolean?": lambda a: isinstance(a, bool), "vector?": lambda a: isinstance(a, tuple), "map?": lambda a: isinstance(a, dict),
    "vector": lambda *args: args, "count": lambda c: len(collection(c, tuple, dict) or ()),
    "empty?": lambda c: not collection(c, tuple, dict), "get": get, "nth": nth,
    "contains?": lambda c, key: (0 <= key < len(c) if is_int(key) else False) if isinstance(c, tuple) else key_of(key) in (collection(c, dict) or {}),
    "conj": lambda items, *more: vector(items, False) + more, "into": lambda a, b: vector(a, False) + vector(b, False),
    "assoc": assoc, "dissoc": dissoc, "keys": lambda m: tuple(map(value_of, collection(m, dict) or {})),
    "vals": lambda m: tuple((collection(m, dict) or {}).values()), "first": lambda v: (vector(v) or (None,))[0],
    "last": lambda v: (vector(v) or (None,))[-1], "rest": lambda v: vector(v)[1:], "subvec": subvec, "str": of_str,
}


# ---- the run

class Task:
    """A task of a transaction: what it was forked with, and what it has done."""

    def __init__(self, unit, name, view, known, depth):
        self.unit, self.name, self.view, self.known, self.depth = unit, name, view, dict(known), depth
        self.writes, self.joined, self.effects, self.made, self.own = {}, set(), [], 0, 0

    def child_name(self):
        self.made += 1
        return self.name + (self.made - 1,)

    def does(self, *effect):
        self.effects.append(((self.name, self.own), effect))
        self.own += 1

    def read(self, name):
        for place in (self.writes, self.view, self.unit.run.refs):
            if name in place:
                return place[name]
        raise AssertionError("a ref that is nowhere")

    def fork(self, body, frame):
        if self.depth == 16:
            raise Fault(8)
        child = Task(self.unit, self.child_name(), {**self.view, **self.writes}, self.known, self.depth + 1)
        try:
            ended = ("value", child.whole(body, frame))
        except Fault as fault:
            ended = ("fault", fault)
        self.known[child.name] = (ended, child)
        return Thing("future", child.name)

    def join(self, name):
        if name not in self.known:
            return self.unit.run.finished[name]
        (kind, end), child = self.known[name]
        if kind == "fault":
            raise end
        if name not in self.joined:
            self.writes.update(child.writes)
            held = {mark for mark, _ in self.effects}
            self.effects += [done for done in child.effects if done[0] not in held]
            self.joined |= {name} | child.joined
            self.known.update(child.known)
        return end

    def whole(self, body, frame):
        value = self.unit.run.block(body, frame, self.unit, self)
        for k in range(self.made):
            if self.name + (k,) in self.known:
                self.join(self.name + (k,))
        return value


class Unit:
    def __init__(self, run, name, actor=None):
        self.run, self.name, self.actor, self.made, self.becomes = run, name, actor, 0, None

    def child_name(self):
        self.made += 1
        return self.name + (self.made - 1,)


class Run:
    def __init__(self, forms):
        self.refs, self.actors, self.mail, self.finished, self.out = {}, {}, {}, {}, []
        self.functions, self.behaviours, self.globals = {}, {}, {}
        self.forms = forms
        for form in forms:
            if isinstance(form, Form) and form.kind == "list" and form and form[0] in ("defn", "def"):
                rest = [it for at, it in enumerate(form[2:]) if not (at == 0 and isinstance(it, str) and not isinstance(it, Symbol) and len(form) > 3)]
                if form[0] == "defn":
                    self.functions[form[1]] = (rest[0], rest[1:])
                elif isinstance(rest[0], Form) and rest[0] and rest[0][0] == "behavior":
                    self.behaviours[form[1]] = rest[0][1:]

    def main(self):
        unit = Unit(self, (0,))
        for form in self.forms:
            if isinstance(form, Form) and form.kind == "list" and form and form[0] in ("defn", "def"):
                if form[1] not in self.functions and form[1] not in self.behaviours:
                    self.globals[form[1]] = self.eval(form[-1], {}, unit, None)
            else:
                self.eval(form, {}, unit, None)
        while any(queue for mails in self.mail.values() for queue in mails.values()):
            self.turn()

    def turn(self):
        def after(name):
            return tuple(name) + (2 ** 32,)
        actor = min((a for a, mails in self.mail.items() if any(mails.values())), key=after)
        sender = min((s for s, queue in self.mail[actor].items() if queue), key=after)
        self.take(actor, sender)

    def take(self, actor, sender):
        message = self.mail[actor][sender].pop(0)
        state = self.actors[actor]
        unit = Unit(self, actor + (state["turns"],), actor)
        state["turns"] += 1
        params, messages, *body = self.behaviours[state["behaviour"]]
        self.begins(unit, body, dict(zip(list(params) + list(messages), state["state"] + message)), len(messages) == len(message))

    def ends(self, unit):
        """A turn's end: what its actor becomes."""
        if unit.becomes:
            self.actors[unit.actor]["behaviour"], self.actors[unit.actor]["state"] = unit.becomes

    def block(self, body, frame, unit, task):
        value = None
        for form in body:
            value = self.eval(form, frame, unit, task)
        return value

    def call(self, name, args, unit, task):
        params, body = self.functions[name]
        while True:
            try:
                return self.block(body, dict(zip(params, args)), unit, task)
            except Recur as again:
                args = again.args[0]

    def eval(self, form, frame, unit, task):
        if isinstance(form, Symbol):
            return frame[form] if form in frame else self.globals[form]
        if not isinstance(form, Form):
            return form
        if form.kind == "vector":
            return tuple([self.eval(part, frame, unit, task) for part in form])
        if form.kind == "map":
            pairs = {}
            values = [self.eval(part, frame, unit, task) for part in form]
            for key, value in zip(values[::2], values[1::2]):
                pairs = put(pairs, key, value)
            return pairs
        head, *args = form
        if isinstance(head, Word):
            return get(self.eval(args[0], frame, unit, task), head, *[self.eval(a, frame, unit, task) for a in args[1:]])
        special = getattr(self, "do_" + SPECIAL.get(head, "none"), None)
        if special:
            return special(args, frame, unit, task)
        values = [self.eval(a, frame, unit, task) for a in args]
        if head in self.functions:
            return self.call(head, values, unit, task)
        if head in PRIMITIVES:
            return PRIMITIVES[head](*values)
        return getattr(self, "act_" + head.replace("-", "_"))(values, unit, task)

    # ---- the forms that don't evaluate all their arguments
    def do_do(self, args, frame, unit, task):
        return self.block(args, frame, unit, task)

    def do_if(self, args, frame, unit, task):
        test = self.eval(args[0], frame, unit, task)
        return self.block(args[1:2] if test is not None and test is not False else args[2:], frame, unit, task)

    def do_when(self, args, frame, unit, task):
        test = self.eval(args[0], frame, unit, task)
        return self.block(args[1:], frame, unit, task) if test is not None and test is not False else None

    def do_and(self, args, frame, unit, task):
        value = True
        for form in args:
            value = self.eval(form, frame, unit, task)
            if value is None or value is False:
                return value
        return value

    def do_or(self, args, frame, unit, task):
        value = None
        for form in args:
            value = self.eval(form, frame, unit, task)
            if value is not None and value is not False:
                return value
        return value

    def do_cond(self, args, frame, unit, task):
        for test, form in zip(args[::2], args[1::2]):
            found = self.eval(test, frame, unit, task)
            if found is not None and found is not False:
                return self.eval(form, frame, unit, task)
        return None

    def do_let(self, args, frame, unit, task):
        frame = dict(frame)
        for name, form in zip(args[0][::2], args[0][1::2]):
            frame[name] = self.eval(form, frame, unit, task)
        return self.block(args[1:], frame, unit, task)

    def do_loop(self, args, frame, unit, task):
        names, frame = args[0][::2], dict(frame)
        for name, form in zip(names, args[0][1::2]):
            frame[name] = self.eval(form, frame, unit, task)
        while True:
            try:
                return self.block(args[1:], frame, unit, task)
            except Recur as again:
                frame = {**frame, **dict(zip(names, again.args[0]))}

    def do_recur(self, args, frame, unit, task):
        raise Recur([self.eval(a, frame, unit, task) for a in args])

    def do_alter(self, args, frame, unit, task):
        ref = self.eval(args[0], frame, unit, task)
        values = [self.eval(a, frame, unit, task) for a in args[2:]]
        values = [self.act_deref([ref], unit, task), *values]
        new = self.call(args[1], values, unit, task) if args[1] in self.functions else PRIMITIVES[args[1]](*values)
        return self.act_ref_set([ref, new], unit, task)

    def do_fork(self, args, frame, unit, task):
        if task:
            return task.fork(args, frame)
        self.goes(unit, task, "fork")
        child = Unit(self, unit.child_name())
        self.begins(child, args, frame)
        return Thing("future", child.name)

    def goes(self, unit, task, kind):
        """A unit is at an effect. Here it goes on at once."""

    def begins(self, unit, body, frame, fits=True):
        """A unit is made. Here it is done at once."""
        if not fits:
            raise Fault(10)
        self.finished[unit.name] = self.block(body, frame, unit, None)
        self.ends(unit)

    def do_dosync(self, args, frame, unit, task):
        if task:
            return self.block(args, frame, unit, task)
        self.goes(unit, task, "dosync")
        root = Task(unit, unit.child_name(), {}, {}, 0)
        value = root.whole(args, frame)
        if holds_future(value):
            raise Fault(7)
        self.refs.update(root.writes)
        for _, (kind, *parts) in root.effects:
            getattr(self, "commit_" + kind)(unit, *parts)
        return value

    def do_spawn(self, args, frame, unit, task):
        state = [self.eval(a, frame, unit, task) for a in args[1:]]
        if any(map(holds_future, state)):
            raise Fault(7)
        self.goes(unit, task, "spawn")
        name = (task or unit).child_name()
        self.effect(unit, task, "spawn", name, args[0], state)
        return Thing("actor", name)

    def do_become(self, args, frame, unit, task):
        state = [self.eval(a, frame, unit, task) for a in args[1:]]
        if any(map(holds_future, state)):
            raise Fault(7)
        self.goes(unit, task, "become")
        if unit.actor is None:
            raise Fault(6)
        self.effect(unit, task, "become", args[0], state)

    # ---- effects
    def effect(self, unit, task, kind, *parts):
        if task:
            task.does(kind, *parts)
        else:
            getattr(self, "commit_" + kind)(unit, *parts)

    def commit_print(self, unit, line):
        self.out.append(line)

    def commit_spawn(self, unit, name, behaviour, state):
        self.actors[name] = {"behaviour": behaviour, "state": state, "turns": 0}

    def commit_send(self, unit, actor, message):
        self.mail.setdefault(actor, {}).setdefault(unit.name, []).append(message)

    def commit_become(self, unit, behaviour, state):
        unit.becomes = (behaviour, state)

    def act_println(self, values, unit, task):
        self.goes(unit, task, "println")
        self.effect(unit, task, "print", " ".join(text_of(v, False) for v in values) + "\n")

    def act_ref(self, values, unit, task):
        if holds_future(values[0]):
            raise Fault(7)
        self.goes(unit, task, "ref")
        name = (task or unit).child_name()
        (task.writes if task else self.refs)[name] = values[0]
        return Thing("ref", name)

    def act_deref(self, values, unit, task):
        ref = self.thing(values[0], "ref")
        self.goes(unit, task, "deref")
        return task.read(ref) if task else self.refs[ref]

    def act_ref_set(self, values, unit, task):
        ref = self.thing(values[0], "ref")
        if holds_future(values[1]):
            raise Fault(7)
        self.goes(unit, task, "ref-set")
        if not task:
            raise Fault(5)
        task.writes[ref] = values[1]
        return values[1]

    def act_join(self, values, unit, task):
        future = self.thing(values[0], "future")
        self.goes(unit, task, "join")
        return task.join(future) if task else self.finished[future]

    def act_send(self, values, unit, task):
        actor = self.thing(values[0], "actor")
        if any(map(holds_future, values[1:])):
            raise Fault(7)
        self.goes(unit, task, "send")
        self.effect(unit, task, "send", actor, values[1:])

    def act_self(self, values, unit, task):
        self.goes(unit, task, "self")
        if unit.actor is None:
            raise Fault(6)
        return Thing("actor", unit.actor)

    @staticmethod
    def thing(value, kind):
        if not isinstance(value, Thing) or value.kind != kind:
            raise Fault(1)
        return value.name


SPECIAL = {word: word for word in "do if when and or cond let loop recur alter fork dosync spawn become".split()}


class Stepped(Run):
    """A run whose units go on only where an entry of a trace lets them. Each unit is a thread that waits at its effects."""

    def __init__(self, forms):
        super().__init__(forms)
        self.waiting, self.done, self.kinds, self.links, self.sent = {}, threading.Semaphore(0), [], [], {}

    def start(self, unit, work):
        self.waiting[unit.name] = threading.Semaphore(0)

        def whole():
            self.at(unit, None)
            try:
                work()
                kind = "end"
            except (Fault, KeyError) as fault:
                kind = "fault" if isinstance(fault, Fault) else "stuck"
            self.note(kind)
            self.done.release()

        thread = threading.Thread(target=whole, daemon=True)
        thread.start()

    def at(self, unit, kind):
        """The unit waits for its next entry; what it did under the last one is noted."""
        self.waiting[unit.name].acquire()

    def note(self, kind):
        self.kinds[-1] = self.kinds[-1] or kind

    def goes(self, unit, task, kind):
        if task:
            return
        if self.kinds[-1] is not None:
            self.done.release()
            self.at(unit, kind)
        self.note(kind)

    def commit_send(self, unit, actor, message):
        self.sent.setdefault((actor, unit.name), []).append(len(self.kinds) - 1)
        super().commit_send(unit, actor, message)

    def begins(self, unit, body, frame, fits=True):
        if unit.actor is None:
            self.links.append((len(self.kinds) - 1, unit.name))

        def work():
            if not fits:
                raise Fault(10)
            self.finished[unit.name] = self.block(body, frame, unit, None)
            if self.kinds[-1] is not None:
                self.done.release()
                self.at(unit, "end")
            self.ends(unit)
        self.start(unit, work)

    def entry(self, kind, name, *rest):
        self.kinds.append(None)
        if kind == "take":
            self.links.append((self.sent[name, rest[0]].pop(0), len(self.kinds) - 1))
            self.take(name, rest[0])
            self.note("take")
        else:
            self.waiting[name].release()
            self.done.acquire()


def effects_of(source, entries):
    """What each entry of a history did (`println`, `dosync` and so on, `take`, `end` where the unit was finished), and
    what led to what: the places of the two entries, from a fork to the first entry of the unit that it made, and from the
    send of a message to the entry that takes it."""
    run = Stepped(read(source))
    unit = Unit(run, (0,))

    def main_work():
        for form in run.forms:
            if isinstance(form, Form) and form.kind == "list" and form and form[0] in ("defn", "def"):
                if form[1] not in run.functions and form[1] not in run.behaviours:
                    run.globals[form[1]] = run.eval(form[-1], {}, unit, None)
            else:
                run.eval(form, {}, unit, None)
        if run.kinds[-1] is not None:
            run.done.release()
            run.at(unit, "end")

    run.start(unit, main_work)
    firsts = {}
    for at, (kind, *names) in enumerate(entries):
        names = [tuple(map(int, name.split("."))) for name in names]
        if kind == "run":
            firsts.setdefault(names[0], at)
        run.entry(kind, *names)
    return run.kinds, [(one, firsts.get(other) if isinstance(other, tuple) else other) for one, other in run.links]


def main():
    with open(sys.argv[1], encoding="utf-8") as file:
        run = Run(read(file.read()))
    status = 0
    try:
        run.main()
    except Fault as fault:
        print("fault", fault.args[0], FAULTS[fault.args[0] - 1], file=sys.stderr)
        status = 1
    sys.stdout.write("".join(run.out))
    return status


def guarded(ended):
    ended.append(main())


if __name__ == "__main__":
    sys.setrecursionlimit(1_000_000)
    threading.stack_size(512 * 1024 * 1024)
    results = []
    thread = threading.Thread(target=guarded, args=(results,))
    thread.start()
    thread.join()
    sys.exit(results[0] if results else 70)
