"""Random scenarios of all forms that run: python3 random_scenarios.py COUNT SEED FOLDER writes COUNT of them.

The last part of data/cases.txt has some of them. More are compared with an independent program outside the gate.
"""
import random
import sys
from pathlib import Path

TYPES = {
    "P": dict(fields=[("x", "i32"), ("y", "i32")]),
    "Q": dict(fields=[("v", "i64")], enableable=True),
    "Link": dict(fields=[("to", "ref"), ("n", "i32")]),
    "Mark": dict(kind="tag", fields=[]),
    "On": dict(kind="tag", fields=[], enableable=True),
    "Team": dict(kind="shared", fields=[("id", "i32")]),
    "Side": dict(kind="shared", fields=[("a", "i64"), ("b", "i32")]),
    "Keep": dict(kind="cleanup", fields=[("v", "i32"), ("by", "ref")]),
    "Bare": dict(kind="cleanup", fields=[]),
    "Big": dict(fields=[(f"f{k}", "i64") for k in range(20)]),
}
TAGS = ["Disabled", "Prefab"]


def kind(t):
    return TYPES[t].get("kind", "plain") if t in TYPES else "tag"


def numeric(t):
    return [f for f, k in TYPES[t]["fields"] if k != "ref"] if t in TYPES else []


def refs(t):
    return [f for f, k in TYPES[t]["fields"] if k == "ref"] if t in TYPES else []


class Gen:
    def __init__(self, seed):
        self.r = random.Random(seed)
        r = self.r
        names = list(TYPES)
        count = r.randint(3, len(names))
        chosen = set(r.sample(names, count))
        self.names = [n for n in names if n in chosen]
        r.shuffle(self.names)
        self.first_entity = r.choice([1, 1, 1, 2, 4294967294, 4294967295])

    def on_types(self):
        return [n for n in self.names if TYPES[n].get("enableable")]

    def number(self):
        r = self.r
        return str(r.choice([0, 1, 2, 3, 5, 7, 10, 100, 2147483647, 4294967296, 9223372036854775807, r.randint(0, 50)]))

    def entity(self):
        r = self.r
        return f"{r.randint(0, 9)}:{r.choice([self.first_entity, self.first_entity, min(self.first_entity + 1, 4294967295), 1])}"

    def ref(self, bound=None):
        r = self.r
        choices = ["null", self.entity(), self.entity()]
        if bound is not None:
            choices.append("self")
            choices += [f"{t}.{f}" for t in bound for f in refs(t)]
        return r.choice(choices)

    def expr(self, place, depth, bound=(), written=()):
        r = self.r
        sub = lambda: self.expr(place, depth - 1, bound, written)
        leaves = [self.number()]
        if place == "system":
            leaves += r.sample(["frame", "chunk", "row", "index", "version"], 2)
            leaves += [f"{t}.{f}" for t in bound for f in numeric(t)]
        elif place == "spawn":
            leaves += ["n", "n"]
        else:
            leaves += ["frame"]
        if depth <= 0 or r.random() < 0.25:
            return r.choice(leaves)
        k = r.random()
        if k < 0.5:
            return f"({sub()} {r.choice(['+', '-', '*', '/', '%', '==', '!=', '<', '<=', '>', '>=', '&&', '||', '+', '-'])} {sub()})"
        if k < 0.58:
            return r.choice(["-", "!"]) + f"({sub()})"
        if k < 0.7 or place != "system":
            which = r.choice(["min", "max", "pick"])
            return f"{which}({sub()}, {sub()}" + (f", {sub()})" if which == "pick" else ")")
        which = r.choice(["get", "alive", "has", "same", "on"])
        if which == "get":
            options = [(t, f) for t in self.names if t not in written for f in numeric(t)]
            if options:
                t, f = r.choice(options)
                return f"get({self.ref(bound)}, {t}.{f})"
            which = "alive"
        if which == "alive":
            return f"alive({self.ref(bound)})"
        if which == "has":
            return f"has({self.ref(bound)}, {r.choice(self.names + TAGS)})"
        if which == "same":
            return f"same({self.ref(bound)}, {self.ref(bound)})"
        options = [t for t in self.names + TAGS if kind(t) != "shared"]
        return f"on({r.choice(options)})"

    def spawn(self):
        r = self.r
        types = [t for t in self.names if r.random() < 0.6]
        types += [t for t in TAGS if r.random() < 0.1]
        r.shuffle(types)
        parts = []
        for t in types:
            values = []
            for f, k in (TYPES[t]["fields"] if t in TYPES else []):
                if k == "ref":
                    values.append('"%s"' % r.choice(["null", self.entity()]))
                elif kind(t) == "shared":
                    values.append(r.choice([str(r.randint(0, 2)), '"n %% %d"' % r.randint(1, 3)]))
                elif r.random() < 0.4:
                    values.append('"%s"' % self.expr("spawn", 2))
                else:
                    values.append(str(r.randint(-5, 5)))
            parts.append(f"{t} = [{', '.join(values)}]")
        line = f"with = {{ {', '.join(parts)} }}" if parts else "with = {}"
        off = [t for t in types if t in TYPES and TYPES[t].get("enableable") and r.random() < 0.4]
        if off:
            line += ", disabled = [%s]" % ", ".join(f'"{t}"' for t in off)
        count = r.choice([1, 1, 1, 2, 2, 3, 3, 4, 4, 5, 1, 2, 3, 2, 4, 130])
        return f"  {{ count = {count}, {line} }},"

    def system(self, number):
        r = self.r
        pool = self.names + (TAGS if r.random() < 0.25 else [])
        r.shuffle(pool)
        lists = {"all": [], "any": [], "none": [], "disabled": [], "absent": []}
        wanted = r.choice([0, 1, 1, 1, 1, 2])
        others = r.choice([0, 0, 1, 1, 2])
        for t in pool:
            if len(lists["all"]) < wanted and (t not in TAGS or r.random() < 0.3):
                lists["all"].append(t)
            elif others:
                others -= 1
                can = t in TYPES and TYPES[t].get("enableable")
                lists[r.choice(["any", "none", "absent", "disabled", "disabled"] if can else ["any", "none", "absent"])].append(t)
        keys = [f'name = "S{number}"']
        if r.random() < 0.35:
            keys.append(f"every = {r.randint(1, 3)}")
        for name, found in lists.items():
            if found or name == "all" or r.random() < 0.05:
                keys.append(f"{name} = [%s]" % ", ".join(f'"{t}"' for t in found))
        for name in ("include_disabled", "include_prefab"):
            if r.random() < 0.2:
                keys.append(f"{name} = true")
        watch = [t for t in lists["all"] if kind(t) != "shared"]
        if watch and r.random() < 0.3:
            keys.append("changed = [%s]" % ", ".join(f'"{t}"' for t in r.sample(watch, min(len(watch), r.randint(1, 2)))))
        if r.random() < 0.15:
            keys.append("order_changed = true")
        sharing = [t for t in lists["all"] if kind(t) == "shared"]
        if sharing and r.random() < 0.4:
            chosen = r.sample(sharing, r.randint(1, len(sharing)))
            keys.append("shared = { %s }" % ", ".join(f"{t} = [{', '.join(str(r.randint(0, 2)) for _ in TYPES[t]['fields'])}]" for t in chosen))
        bound = [t for t in lists["all"] + lists["disabled"]]
        writable = [t for t in bound if kind(t) in ("plain", "cleanup") and t in TYPES and TYPES[t]["fields"]]
        targets = [(t, f, k) for t in writable for f, k in TYPES[t]["fields"][:2]]
        switched = [t for t in bound if t in TYPES and TYPES[t].get("enableable")]
        sets = r.sample(targets, min(len(targets), r.randint(0, 3)))
        turns = [t for t in switched if r.random() < 0.5]
        written = {t for t, _, _ in sets} | set(turns)
        if sets:
            texts = []
            for t, f, k in sets:
                right = self.ref(bound) if k == "ref" else self.expr("system", 3, bound, written)
                texts.append(f'"{t}.{f} = {right}"')
            keys.append(f"set = [{', '.join(texts)}]")
        if turns:
            texts = [f'"{t} = {self.expr("system", 2, bound, written)}"' for t in turns]
            keys.append(f"enable = [{', '.join(texts)}]")
        return f"  {{ {', '.join(keys)} }},"

    def part(self, t):
        fields = TYPES[t]["fields"] if t in TYPES else []
        if not fields:
            return t
        values = []
        for f, k in fields:
            if k == "ref":
                values.append(self.r.choice(["null", self.entity()]))
            elif kind(t) == "shared":
                values.append(str(self.r.randint(0, 2)))
            else:
                values.append(self.expr("event", 1))
        return f"{t}({', '.join(values)})"

    def event(self, frames):
        r = self.r
        pool = self.names + TAGS
        while True:
            word = r.choice(["create", "destroy", "destroy", "add", "add", "remove", "remove", "set", "set_shared", "enable", "disable", "instantiate", "instantiate"])
            if word == "create":
                types = [t for t in pool if r.random() < 0.3 and (t in TYPES or r.random() < 0.3)]
                text = "create n" + (" with " + ", ".join(self.part(t) for t in types) if types else "")
            elif word == "destroy":
                text = f"destroy {self.entity()}"
            elif word == "add":
                text = f"add {self.entity()} {self.part(r.choice(pool))}"
            elif word == "remove":
                text = f"remove {self.entity()} {r.choice(pool)}"
            elif word == "set":
                options = [t for t in self.names if kind(t) in ("plain", "cleanup")]
                if not options:
                    continue
                text = f"set {self.entity()} {self.part(r.choice(options))}"
            elif word == "set_shared":
                options = [t for t in self.names if kind(t) == "shared"]
                if not options:
                    continue
                text = f"set_shared {self.entity()} {self.part(r.choice(options))}"
            elif word in ("enable", "disable"):
                if not self.on_types():
                    continue
                text = f"{word} {self.entity()} {r.choice(self.on_types())}"
            else:
                text = f"instantiate n from {self.entity()}"
            if len(text) <= 1000:
                return f'  {{ frame = {r.randint(1, frames + 1) if frames else 1}, do = "{text}" }},'

    def whole(self):
        r = self.r
        frames = r.choice([1, 2, 3, 3, 4, 5])
        lines = [f"frames = {frames}"]
        if r.random() < 0.5:
            lines.append(f"first_system_version = {r.choice([7, 2147483640, 4294967295, 4294967294, 4294967295 - r.randint(0, 60)])}")
        if self.first_entity != 1:
            lines.append(f"first_entity_version = {self.first_entity}")
        lines.append("type = [")
        for t in self.names:
            info = TYPES[t]
            keys = [f'name = "{t}"']
            if "kind" in info:
                keys.append(f'kind = "{info["kind"]}"')
            if info["fields"]:
                keys.append("fields = [%s]" % ", ".join(f'"{f}:{k}"' for f, k in info["fields"]))
            if info.get("enableable"):
                keys.append("enableable = true")
            lines.append(f"  {{ {', '.join(keys)} }},")
        lines += ["]", "spawn = ["] + [self.spawn() for _ in range(r.randint(2, 5))] + ["]"]
        lines += ["system = ["] + [self.system(k) for k in range(r.randint(1, 4))] + ["]"]
        lines += ["event = ["] + [self.event(frames) for _ in range(r.randint(2, 9))] + ["]"]
        return "\n".join(lines)


def scenarios(count, seed):
    return [Gen(seed * 100000 + k).whole() for k in range(count)]


if __name__ == "__main__":
    for number, text in enumerate(scenarios(int(sys.argv[1]), int(sys.argv[2]))):
        (Path(sys.argv[3]) / f"{number}.toml").write_text(text)
