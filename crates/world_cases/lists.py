"""Makes the lists of operations of the program `world_cases`, and works out what the program must print for them.

The world here is written from the rules alone, without the program's code: rows are records, blocks are lists of rows, and
everything is found by looking through all of it. The lists come from a fixed seed, so each run gives the same files.

Usage: lists.py TABLE OUTPUT    writes the table and the expected output, and prints what the lists reach
"""
import collections
import random
import sys

SEED = 20240611
OPERATIONS = 30
CROWD_OPERATIONS = 200
LAST = 4_294_967_295
MOST_ALIVE, MOST_MADE = 1_048_576, 4_194_304
MOST_ELEMENTS = 4_096
BLOCK_BYTES, MOST_ROWS = 16_320, 128
SIZES = {"i32": 4, "i64": 8, "ref": 8}
PREFAB = 1
NULL = (0, 0)

Type = collections.namedtuple("Type", "kind name fields enableable")
BUILT_IN = [Type("tag", "Disabled", [], False), Type("tag", "Prefab", [], False), Type("shared", "SceneTag", ["i64"], False)]

TYPES = [
    Type("plain", "Point", ["i32", "i64"], False),
    Type("plain", "Glow", ["i32"], True),
    Type("plain", "Link", ["ref", "i32"], False),
    Type("plain", "Mixed", ["i64", "ref", "i32", "ref"], True),
    Type("tag", "Mark", [], False),
    Type("tag", "Lit", [], True),
    Type("shared", "Team", ["i32"], False),
    Type("shared", "Zone", ["i64", "i32"], False),
    Type("cleanup", "Grave", ["i32", "ref"], False),
    Type("cleanup", "Ash", [], False),
    Type("buffer", "Items", ["i32"], False),
    Type("buffer", "Pals", ["ref", "i64"], False),
]

# 31 of these large types fit into a block, and 32 don't.
LARGE_COUNT = 33
LETTERS = "abcdefgh"
LARGE_TYPES = [Type("plain", "L" + LETTERS[k // 8] + LETTERS[k % 8], ["i64"] * 64, k == 0) for k in range(LARGE_COUNT)]
LARGE = range(len(BUILT_IN) + len(TYPES), len(BUILT_IN) + len(TYPES) + LARGE_COUNT)
ITEMS = 13

# The types of lists in which many rows have the same types. Of the first, 14 rows fit into a block; without rounding, without
# the column of entities, or with 64 bytes more, 15 would fit. Of the second 7 fit, and of the third 10.
PACKED = [[LARGE[0], LARGE[1], 3, 4, 5, 6], [*LARGE[:4]], [*LARGE[:3], 7, 9]]

# The world.

class Skip(Exception):
    """An operation is skipped, for the cause that is its argument."""


class Row:
    def __init__(self, entity, cells, off, dying):
        self.entity, self.cells, self.off, self.dying = entity, cells, off, dying


class Block:
    def __init__(self, types, shared):
        self.types, self.shared = types, shared
        self.rows, self.marks, self.order = [], {}, None


def up64(size):
    return -(-size // 64) * 64


class World:
    def __init__(self, types, first_entity_version, first_system_version):
        self.types = types
        self.blocks, self.free, self.made = [], [], 0
        self.first, self.version = first_entity_version, first_system_version

    def kind(self, ty):
        return self.types[ty].kind

    def capacity(self, types):
        columns = [sum(SIZES[field] for field in self.types[ty].fields) for ty in types if self.kind(ty) in ("plain", "cleanup")]
        best = 0
        for count in range(MOST_ROWS + 1):
            if up64(8 * count) + sum(up64(size * count) for size in columns) <= BLOCK_BYTES:
                best = count
        return best

    def find(self, entity):
        for block in self.blocks:
            for row in block.rows:
                if row.entity == entity:
                    return block, row
        raise Skip("NoEntity")

    def alive(self):
        return [row.entity for block in self.blocks for row in block.rows]

    def room(self):
        return min(MOST_ALIVE - len(self.alive()), len(self.free) + MOST_MADE - self.made)

    def take_id(self):
        if self.free:
            return self.free.pop(0)
        self.made += 1
        return self.made - 1, self.first

    def give_id(self, entity):
        index, version = entity
        if version != LAST:
            self.free.insert(0, (index, version + 1))

    def enter(self, row, types, shared):
        types = sorted(types)
        most = self.capacity(types)
        for block in self.blocks:
            if block.types == types and block.shared == shared and len(block.rows) < most:
                break
        else:
            block = Block(types, shared)
            self.blocks.append(block)
        block.rows.append(row)
        block.marks = {ty: self.version for ty in types}
        block.order = self.version

    def leave(self, block, row):
        at = block.rows.index(row)
        block.rows[at] = block.rows[-1]
        block.rows.pop()
        block.order = self.version
        if not block.rows:
            self.blocks.remove(block)

    def move(self, block, row, types, shared, cells):
        self.leave(block, row)
        row.cells = cells
        row.off = row.off & set(types)
        self.enter(row, types, shared)

    def end(self, block, row):
        self.leave(block, row)
        self.give_id(row.entity)

    def raise_version(self):
        self.version = 1 if self.version == LAST else self.version + 1

    def create(self, parts):
        types = [ty for ty, _ in parts]
        if self.capacity(types) == 0:
            raise Skip("TooLarge")
        if self.room() == 0:
            raise Skip("Full")
        shared = {ty: values for ty, values in parts if self.kind(ty) == "shared"}
        cells = {ty: values for ty, values in parts if self.kind(ty) != "shared"}
        entity = self.take_id()
        self.enter(Row(entity, cells, set(), False), types, shared)
        return entity

    def destroy(self, entity):
        block, row = self.find(entity)
        kept = [ty for ty in block.types if self.kind(ty) == "cleanup"]
        if not kept:
            self.end(block, row)
        elif kept == block.types:
            row.dying = True
        else:
            row.dying = True
            self.move(block, row, kept, {}, {ty: row.cells[ty] for ty in kept})

    def add(self, entity, part):
        block, row = self.find(entity)
        ty, values = part
        if ty in block.types:
            if self.kind(ty) == "shared":
                self.share(block, row, ty, values)
            else:
                self.put(block, row, ty, values)
            return
        types = block.types + [ty]
        if self.capacity(types) == 0:
            raise Skip("TooLarge")
        if self.kind(ty) == "shared":
            self.move(block, row, types, {**block.shared, ty: values}, row.cells)
        else:
            self.move(block, row, types, block.shared, {**row.cells, ty: values})

    def remove(self, entity, ty):
        block, row = self.find(entity)
        if ty not in block.types:
            return
        types = [other for other in block.types if other != ty]
        if row.dying and not types:
            self.end(block, row)
            return
        shared = {other: values for other, values in block.shared.items() if other != ty}
        self.move(block, row, types, shared, {other: values for other, values in row.cells.items() if other != ty})

    def put(self, block, row, ty, values):
        row.cells = {**row.cells, ty: values}
        block.marks[ty] = self.version

    def share(self, block, row, ty, values):
        if block.shared[ty] != values:
            self.move(block, row, block.types, {**block.shared, ty: values}, row.cells)

    def find_with(self, entity, ty):
        block, row = self.find(entity)
        if ty not in block.types:
            raise Skip("NoComponent")
        return block, row

    def set(self, entity, part):
        block, row = self.find_with(entity, part[0])
        self.put(block, row, *part)

    def set_shared(self, entity, part):
        block, row = self.find_with(entity, part[0])
        self.share(block, row, *part)

    def set_enabled(self, entity, ty, on):
        self.find(entity)
        if not self.types[ty].enableable:
            raise Skip("NotEnableable")
        block, row = self.find_with(entity, ty)
        row.off = row.off - {ty} if on else row.off | {ty}
        block.marks[ty] = self.version

    def instantiate(self, entity):
        block, row = self.find(entity)
        if self.room() == 0:
            raise Skip("Full")
        types = [ty for ty in block.types if ty != PREFAB and self.kind(ty) != "cleanup"]
        copy = self.take_id()
        cells = {ty: values for ty, values in row.cells.items() if ty in types}
        self.enter(Row(copy, cells, row.off & set(types), False), types, block.shared)
        return copy

    def append(self, entity, part):
        ty, element = part
        block, row = self.find_with(entity, ty)
        if len(row.cells[ty]) // len(self.types[ty].fields) == MOST_ELEMENTS:
            raise Skip("TooLong")
        self.put(block, row, ty, row.cells[ty] + element)

    def clear(self, entity, ty):
        block, row = self.find_with(entity, ty)
        self.put(block, row, ty, [])

    def do(self, operation):
        """What the program prints of an operation."""
        word, *rest = operation
        try:
            if word in ("enable", "disable"):
                made = self.set_enabled(*rest, word == "enable")
            else:
                made = getattr(self, word)(*rest)
        except Skip as skip:
            return skip.args[0]
        return "done" if made is None else name_of(made)


# The expected output.

def name_of(entity):
    return f"{entity[0]}:{entity[1]}"


def value_of(value):
    if isinstance(value, tuple):
        return "null" if value == NULL else name_of(value)
    return str(value)


def group(values):
    return "(" + ",".join(map(value_of, values)) + ")" if values else ""


def row_of(world, block, row):
    line = name_of(row.entity)
    for ty in block.types:
        info = world.types[ty]
        line += " " + ("!" if ty in row.off else "") + info.name
        if info.kind == "shared":
            line += group(block.shared[ty])
        elif info.kind == "buffer":
            width, values = len(info.fields), row.cells[ty]
            line += "[" + ",".join(group(values[at:at + width]) for at in range(0, len(values), width)) + "]"
        else:
            line += group(row.cells[ty])
    return line + (" dying" if row.dying else "")


def rows_of(world, number):
    found = sorted((row.entity, row_of(world, block, row)) for block in world.blocks for row in block.rows)
    yield f"world frames={number} entities={len(found)}"
    for _, line in found:
        yield line
    for block in world.blocks:
        marks = "".join(f" {ty}@{block.marks[ty]}" for ty in block.types)
        yield f"block order={block.order}{marks} rows" + "".join(" " + name_of(row.entity) for row in block.rows)


# The lines of the table.

def written(value):
    return name_of(value) if isinstance(value, tuple) else str(value)


def part_of(part):
    ty, values = part
    words, at = [], 0
    while at < len(values):
        end = at
        while end < len(values) and values[end] == values[at]:
            end += 1
        count = end - at
        words.append(written(values[at]) + (f"*{count}" if count > 1 else ""))
        at = end
    return f"{ty}=" + ",".join(words)


def line_of(operation):
    """`OPERATION ENTITY PART ..`, where the entity of a create is null, and a part that is a type alone has no values."""
    word, *rest = operation
    if word == "create":
        return " ".join([word, name_of(NULL)] + [part_of(part) for part in rest[0]])
    return " ".join([word, name_of(rest[0])] + [f"{what}=" if isinstance(what, int) else part_of(what) for what in rest[1:]])


# The lists.

class Maker:
    """Makes the operations of a list, each for the world as those before it left it."""

    def __init__(self, rng, world, sort):
        self.rng, self.world, self.sort = rng, world, sort
        self.known = [NULL]
        self.removed = None
        self.packed = rng.choice(PACKED) if sort == "packed" else [7]

    def ref(self):
        near = (self.rng.randrange(8), self.rng.randrange(3))
        return self.rng.choice([NULL, near, self.rng.choice(self.known)])

    def number(self, kind):
        bits = 31 if kind == "i32" else 63
        return self.rng.choice([0, 1, -1, self.rng.randrange(-99, 100), 2 ** bits - 1, -2 ** bits])

    def element(self, ty):
        return [self.ref() if kind == "ref" else self.number(kind) for kind in self.world.types[ty].fields]

    def values(self, ty):
        info = self.world.types[ty]
        if info.kind == "shared":
            return [self.rng.choice([1, 2]) for _ in info.fields]
        if ty in LARGE:
            return [self.rng.randrange(10)] * 64
        if info.kind != "buffer":
            return self.element(ty)
        if self.sort == "long" and ty == ITEMS:
            return [self.rng.randrange(10)] * (MOST_ELEMENTS - self.rng.randrange(3))
        return [value for _ in range(self.rng.randrange(4)) for value in self.element(ty)]

    def target(self):
        alive = self.world.alive()
        if alive and self.rng.random() < 0.8:
            dying = [entity for entity in alive if self.world.find(entity)[1].dying]
            return self.rng.choice(dying if dying and self.rng.random() < 0.3 else alive)
        entity = self.rng.choice(self.known)
        return self.rng.choice([entity, entity, NULL, (entity[0], self.rng.randrange(4)), (self.rng.randrange(40), 1)])

    def type_at(self, entity, may):
        """A type that may be named, often one that the entity has."""
        all_types = [ty for ty in range(len(self.world.types)) if may(self.world.types[ty])]
        if entity in self.world.alive() and self.rng.random() < 0.7:
            there = [ty for ty in self.world.find(entity)[0].types if ty in all_types]
            return self.rng.choice(there or all_types)
        return self.rng.choice(all_types)

    def parts(self):
        types = range(len(self.world.types))
        if self.sort in ("packed", "crowd"):
            chosen = self.packed[:]
        elif self.sort == "large":
            chosen = self.rng.sample(LARGE, self.rng.choice([10, 15, 16, 30, 31, 31, 32, 33]))
            chosen += [ty for ty in types if ty not in LARGE and ty not in (ITEMS, 3, 6, 11) and self.rng.random() < 0.15]
        else:
            share = self.rng.choice([0.1, 0.3, 0.6])
            chosen = [ty for ty in types if self.rng.random() < (share if ty > PREFAB else 0.1)]
        if self.sort == "long":
            chosen = sorted({*[ty for ty in chosen if self.rng.random() < 0.3], ITEMS})
        self.rng.shuffle(chosen)
        return [(ty, self.values(ty)) for ty in chosen]

    def operation(self):
        chosen = {
            "plain": {"create": 5, "destroy": 3, "instantiate": 3, "add": 5, "remove": 4, "set": 4, "set_shared": 3, "enable": 2,
                      "disable": 4, "append": 4, "clear": 1},
            "large": {"create": 3, "destroy": 3, "instantiate": 1, "add": 6, "remove": 3, "set": 2, "set_shared": 1, "enable": 1,
                      "disable": 2, "append": 1, "clear": 1},
            "packed": {"create": 3, "destroy": 4, "instantiate": 14, "remove": 1, "set_shared": 1},
            "crowd": {"destroy": 1, "instantiate": 12},
            "long": {"create": 1, "destroy": 2, "instantiate": 1, "add": 1, "remove": 1, "set": 1, "append": 12, "clear": 2},
        }[self.sort]
        word = self.rng.choices(list(chosen), chosen.values())[0] if self.world.alive() else "create"
        if word == "create":
            return word, self.parts()
        entity = self.target()
        if word in ("destroy", "instantiate"):
            return word, entity
        if word == "add" and self.removed and self.rng.random() < 0.2:
            entity, ty = self.removed
            return word, entity, (ty, self.values(ty))
        if word == "remove":
            off = [ty for block in self.world.blocks for row in block.rows if row.entity == entity for ty in row.off]
            ty = off[0] if off and self.rng.random() < 0.5 else self.type_at(entity, lambda info: True)
            self.removed = entity, ty
            return word, entity, ty
        if word in ("enable", "disable"):
            often = self.rng.random() < 0.6
            return word, entity, self.type_at(entity, lambda info: info.enableable or not often)
        if word in ("append", "clear"):
            ty = self.type_at(entity, lambda info: info.kind == "buffer")
            return (word, entity, (ty, self.element(ty))) if word == "append" else (word, entity, ty)
        if word == "set_shared":
            ty = self.type_at(entity, lambda info: info.kind == "shared")
        elif word == "set":
            ty = self.type_at(entity, lambda info: info.kind not in ("shared", "buffer"))
        elif self.sort == "large" and entity in self.world.alive():
            there = self.world.find(entity)[0].types
            ty = self.rng.choice([ty for ty in LARGE if ty not in there or len(there) < 20])
        else:
            ty = self.rng.choice([self.type_at(entity, lambda info: True), self.rng.randrange(len(self.world.types))])
        return word, entity, (ty, self.values(ty))


class Lists:
    def __init__(self):
        self.rng = random.Random(SEED)
        self.table, self.output = ["# The lists of operations. lists.py makes them, and works out what the program must print."], []
        self.count = 0
        self.answers, self.dying, self.kinds = collections.Counter(), collections.Counter(), collections.Counter()
        self.retired, self.wrapped = 0, 0

    def begin(self, types, entity, system):
        self.count += 1
        is_large = len(types) > len(TYPES)
        self.table += ["----", f"{self.count} {'large' if is_large else 'small'} {entity} {system}"]
        self.head = len(self.table)
        return World(BUILT_IN + types, entity, system)

    def make(self, sort):
        entity = self.rng.choice([1, 1, 1, 7, LAST - 1, LAST])
        system = self.rng.choice([1, 1, 2, LAST - 3, LAST])
        world = self.begin(TYPES + (LARGE_TYPES if sort in ("large", "packed") else []), entity, system)
        maker = Maker(self.rng, world, sort)
        count = CROWD_OPERATIONS if sort == "crowd" else OPERATIONS
        for at in range(count):
            if self.rng.random() < 0.3:
                self.wrapped += world.version == LAST
                world.raise_version()
                self.table.append("raise 0:0")
                self.output.append("done")
            operation = maker.operation()
            if at >= count - 8:
                operation = self.shorten(world) or operation
            self.do(world, maker, operation)
        self.end(world)

    def shorten(self, world):
        """An operation that shortens what is printed of the world, if more than one row is long."""
        rows = [row for block in world.blocks for row in block.rows if sum(map(len, row.cells.values())) > 640]
        if len(rows) < 2:
            return None
        for ty, values in rows[-1].cells.items():
            if len(values) > 64:
                return "clear", rows[-1].entity, ty
        return "destroy", rows[-1].entity

    def do(self, world, maker, operation):
        targets = [row.dying for block in world.blocks for row in block.rows if row.entity == operation[1]]
        answer = world.do(operation)
        self.table.append(line_of(operation))
        self.output.append(answer)
        made = operation[0] in ("create", "instantiate") and ":" in answer
        if made:
            maker.known.append(world_entity(answer))
        self.answers[operation[0], "made" if made else answer] += 1
        self.dying[operation[0]] += True in targets
        if len(operation) == 3:
            ty = operation[2] if isinstance(operation[2], int) else operation[2][0]
            self.kinds[operation[0], world.types[ty].kind] += 1

    def end(self, world):
        self.output += rows_of(world, self.count)
        self.retired += world.made - len(world.free) - len(world.alive())

    def bad_lines(self):
        """Lines that say nothing that can be done, in a world of one entity that they leave as it is, and bad first lines."""
        world = self.begin(TYPES, 1, 1)
        create = "create", [(3, [1, 2]), (9, [1]), (ITEMS, [5])]
        self.table.append(line_of(create))
        self.output.append(world.do(create))
        for line in BAD_LINES:
            self.table.append(line)
            self.output.append(f"bad line {len(self.table) - self.head + 1}")
        self.end(world)
        for line in BAD_HEADS:
            self.table += ["----", line]
            self.output.append("bad line 1")


BAD_LINES = [
    "", "create", "destroy 0", "destroy 0:", "destroy 0:1:1", "destroy 4294967296:1", "destroy -1:1", "vanish 0:1", "vanish 0:1 3=",
    "create 0:0 3=1", "create 0:0 3=1,2,3", "create 0:0 3=2147483648,0", "create 0:0 3=1,0:1", "create 0:0 5=1,1",
    "create 0:0 15=", "create 0:0 65536=", "create 0:0 3=1,2 3=1,2", "create 0:0 3=1,2 3", "create 0:0 4=x",
    "create 0:0 4=9223372036854775808", "create 0:0 7=1", "create 0:0 14=0:1", "create 0:0 13=1*4097", "create 0:0 13=1*x",
    "add 0:1", "add 0:1 3=1,2 4=1", "add 0:1 15=1", "add 0:1 13=0:1", "remove 0:1", "remove 0:1 15=", "remove 0:1 x=",
    "enable 0:1 15=", "set 0:1 9=1", "set 0:1 13=1", "set 0:1 3=1", "set_shared 0:1 3=1,2", "set_shared 0:1 9=0:1",
    "append 0:1 3=1,2", "append 0:1 13=1,2", "append 0:1 13=", "clear 0:1 3=", "clear 0:1 15=", "destroy 0:1 3=",
]
BAD_HEADS = ["1 small 0 1", "1 small 1 0", "1 small 1", "x small 1 1", "1 large 4294967296 1"]


def world_entity(text):
    index, version = text.split(":")
    return int(index), int(version)


def main():
    lists = Lists()
    for sort, count in ("plain", 312), ("long", 4), ("large", 12), ("packed", 8), ("crowd", 1):
        for _ in range(count):
            lists.make(sort)
    lists.bad_lines()
    for path, lines in zip(sys.argv[1:3], (lists.table, lists.output)):
        with open(path, "w", encoding="ascii") as file:
            file.write("".join(line + "\n" for line in lines))
    print(f"{lists.count} lists, {sum(lists.answers.values())} operations; {lists.retired} indexes retired; "
          f"{lists.wrapped} times version 1 follows the last; {len(BAD_LINES) + len(BAD_HEADS)} bad lines")
    for word in sorted({word for word, _ in lists.answers}):
        found = {answer: count for (other, answer), count in sorted(lists.answers.items()) if other == word}
        kinds = {kind: count for (other, kind), count in sorted(lists.kinds.items()) if other == word}
        print(word, found, "dying", lists.dying[word], kinds)


main()
