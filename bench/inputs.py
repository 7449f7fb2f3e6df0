"""The large inputs of the runs of `costs.txt`, which are made and not stored.

RECIPES has a function for each. It gives the same text each time, in any version of Python: what
differs within an input follows from where it stands. `costs` puts an input into the folder out/,
where a run names it as `out/NAME`. What bytes it has to have is stored in `inputs.txt`.
"""

import json

SENTENCES = 'It says "région", and a line feed\n. It has \\, and then plain words. '
WORDS = ("account", "branch", "channel", "device", "order", "région", "session", "volume")
# The most levels of a document, of an input of the solver's program, and of a type.
LEVELS, LEVELS_OF_PROGRAM, LEVELS_OF_TYPES = 128, 127, 127

# Ten declarations that need each other. Each has another way in which types are written.
BLOCK = """\
/// What block @ orders.
#[derive(Debug, Clone, Deserialize)]
#[serde(rename_all = "camelCase")]
pub struct Order@ {
    order_id: u64,
    #[serde(flatten)]
    source: Source@,
    lines: Vec<Line@>,
    pages: HashMap<String, Page@<Line@>>,
    state: Option<State@>,
    #[serde(default)]
    notes: Notes@,
    events: (Event@, Event@),
    limit: Limit@,
    // next
}

#[derive(Debug, Clone, Deserialize)]
#[serde(untagged)]
pub enum Source@ {
    Customer { customer_@: String, rank: Option<u8> },
    Partner { partner_@: String, regions: Vec<String> },
}

#[derive(Debug, Clone, Deserialize)]
pub struct Line@ {
    #[serde(rename = "type")]
    kind: String,
    amount: f64,
    #[serde(skip_serializing_if = "Option::is_none")]
    price: Option<Price@>,
}

#[derive(Debug, Clone, Deserialize)]
pub struct Page@<T> {
    items: Vec<T>,
    at: usize,
}

#[derive(Debug, Clone, Deserialize)]
#[serde(tag = "state", rename_all = "kebab-case")]
pub enum State@ {
    InWork { since: String },
    Sent { at: String, by: String },
    Lost,
}

type Notes@ = BTreeMap<String, Box<str>>;

#[derive(Debug, Clone, Deserialize)]
#[serde(tag = "kind", content = "of")]
pub enum Event@ {
    Created(Line@),
    Changed { from: u32, to: u32 },
}

#[derive(Debug, Clone, Deserialize)]
pub struct Limit@(u32);

#[derive(Debug, Clone, Deserialize)]
pub struct Price@ {
    cents: i64,
    currency: Currency@,
}

#[derive(Debug, Clone, Deserialize)]
pub enum Currency@ {
    Euro,
    Other { name: String, digits: u8 },
}

"""

# A struct with five faults, each of another kind.
FAULTY = """\
#[derive(Deserialize)]
#[serde(colour)]
struct Faulty@ {
    first: Unknown@,
    #[serde(alias = "number")]
    second: u8,
    third: Hidden@,
    fourth: Option<u8, u8>,
    // next
}

struct Hidden@ {
    name: String,
}

"""

# A service is told by its keys, its health by a tag. Two optional blocks stand beside its members.
SERVICE = """\
#[derive(Deserialize)]
struct Service {
    name: String,
    ports: Vec<u16>,
    #[serde(default)]
    notes: String,
    #[serde(flatten)]
    origin: Origin,
    health: Option<Health>,
    #[serde(flatten)]
    limits: Option<Limits>,
    #[serde(flatten)]
    owner: Option<Owner>,
}

#[derive(Deserialize)]
#[serde(untagged)]
enum Origin {
    Image { image: String, digest: Option<String> },
    Build { context: String, file: Option<String> },
    Path { path: String },
}

#[derive(Deserialize)]
#[serde(tag = "type", rename_all = "lowercase")]
enum Health {
    Http { url: String, every: f64 },
    Command { words: Vec<String> },
    None,
}

#[derive(Deserialize)]
struct Limits { memory: u64, share: f32 }

#[derive(Deserialize)]
struct Owner { team: String, mail: String }
"""

# Both variants read what has neither stamps nor a subject.
NOTICE = """\
struct Board { notices: Vec<Notice> }
struct Notice { text: String, #[serde(flatten)] way: Way }
#[serde(untagged)]
enum Way {
    Letter { address: String, stamps: Option<u8> },
    Mail { address: String, subject: Option<String> },
}
"""


def text_of(document):
    """A document as its text, with characters past ASCII and escapes."""
    return json.dumps(document, ensure_ascii=False) + "\n"


def chained(block, count, next_field):
    """Blocks of declarations, each with its number, of which each but the last names the next."""
    for n in range(count):
        field = f"{next_field}{n + 1}>>,\n" if n + 1 < count else ""
        yield block.replace("    // next\n", field).replace("@", str(n))


def needed_types():
    """300 declarations, which the first needs all."""
    return "".join(chained(BLOCK, 30, "    next: Option<Box<Order"))


def unneeded_types():
    """1 MB of declarations, of which each block of ten needs no other."""
    return "".join(BLOCK.replace("    // next\n", "").replace("@", str(n)) for n in range(650))


def faulty_types():
    """500 faults, which the first struct needs all."""
    return "".join(chained(FAULTY, 100, "    next: Option<Box<Faulty"))


def deep_types():
    """10 structs, each a field of the one before, and in each a type as deep as one may be."""
    lists = LEVELS_OF_TYPES - 1  # What they hold is one more.
    deep = f"{'Vec<' * lists}u8{'>' * lists}"
    structs = (f"struct S{n} {{ below: S{n + 1}, deep: {deep} }}\n" for n in range(9))
    return "".join([*structs, f"struct S9 {{ deep: {deep} }}\n"])


def service(n):
    """A service: what it has follows from its number."""
    word = WORDS[n % len(WORDS)]
    health = (
        {"type": "http", "url": f"http://{word}.example.org/{n}", "every": n / 8},
        {"type": "command", "words": ["check", word, 'with "quotes"']},
        {"type": "none"},
        None,
    )[n % 4]
    origin = (
        {"image": f"{word}:{n}", "digest": f"{n * n:032x}"},
        {"context": f"./{word}\n", "file": None},
        {"path": f"/srv/{word}/{n}"},
    )[n % 3]
    found = {"name": f"{word} {n}", **origin, "ports": [n % 60_000, 8080], "health": health}
    if n % 5 == 0:
        found |= {"memory": n << 20, "share": -0.5}
    if n % 7 == 0:
        found |= {"mail": f"{word}@example.org", "team": word}
    return found


def service_types():
    return SERVICE


def lines():
    """1,000 documents, a line each. One in ten has no reading, and one in a hundred is no JSON."""
    found = []
    for n in range(1_000):
        document = service(n)
        if n % 10 == 9:
            del document["ports"]
        found.append("{not JSON\n" if n % 100 == 50 else text_of(document))
    return "".join(found)


def services():
    """A list of 1,000 services."""
    return text_of([service(n) for n in range(1_000)])


def megabyte():
    """A list of services with long texts, in a document of 1 MB."""
    return text_of([service(n) | {"notes": f"{n}: " + SENTENCES * 10} for n in range(1_100)])


def fault_at_the_end():
    """A list of 1,000 services, of which the last is told by no key."""
    return text_of([*(service(n) for n in range(999)), {"name": "last", "ports": []}])


def notice_types():
    return NOTICE


def notices():
    """2,000 notices, of which one in a hundred is a letter and a mail."""
    ways = [{"address": "a", "stamps": 1}, {"address": "b", "subject": "c"}]
    found = [{"text": f"notice {n}", **ways[n % 2]} for n in range(2_000)]
    for n in range(99, 2_000, 100):
        found[n] = {"text": f"notice {n}", "address": "both"}
    return text_of({"notices": found})


def chain_types():
    """An enum that holds itself, in an object and in a list."""
    return "#[serde(untagged)] enum Link { One { next: Option<Box<Link>> }, Many(Vec<Link>) }\n"


def deep_document():
    """A document as deep as a reader takes it: objects and lists by turns, with others beside."""
    around = LEVELS // 2 - 1
    return '{"next": [{"next": null}, [], ' * around + '{"next": []}' + "]}" * around + "\n"


def members_types():
    return "struct Bag { size: u32, #[serde(flatten)] all: HashMap<String, u32> }\n"


def members():
    """An object with 15,000 members, whose names are in no order."""
    names = (f"{WORDS[n % 8]}_{n * 7919 % 20_011}" for n in range(15_000))
    return text_of({name: n for n, name in enumerate(names)} | {"size": 1})


FIELDS = [f"field_{n:03}" for n in range(200)]


def fields_types():
    return f"struct Row {{ {', '.join(f'{name}: u32' for name in FIELDS)} }}\n"


def fields():
    """40 objects of 200 members, by turns in the order of the type and in the other order."""
    members = [(name, n) for n, name in enumerate(FIELDS)]
    return text_of([dict(members), dict(reversed(members))] * 20)


def alternatives_types():
    """An enum of 201 variants, each of which has to be asked: all read lists."""
    variants = ", ".join(f"V{n}(Vec<u8>)" for n in range(200))
    return f"#[serde(untagged)] enum Way {{ {variants}, Last(Vec<String>) }}\n"


def alternatives():
    """100 lists that the last variant alone reads."""
    return text_of([["a"]] * 100)


# What follows are inputs of the solver's program: a catalogue of shapes, and a document.

TEXT = {"id": "String", "kind": "scalar", "scalar": "string"}


def tagged_types():
    """1,000 variants that the text of a tag tells, and a member of each alone."""
    variants = "".join(f"    V{n} {{ a{n}: u8, x: u8 }},\n" for n in range(1_000))
    return f'#[serde(tag = "t")]\nenum Way {{\n{variants}}}\n'


def equal_types():
    """300 variants of the same fields, which no document tells apart."""
    variants = "".join(f"    V{n} {{ a: u8, x: u8 }},\n" for n in range(300))
    return f"#[serde(untagged)]\nenum Way {{\n{variants}}}\n"


def selections_types():
    """Two structs of 30 selections each, of the same names."""
    lines = []
    for side in ("First", "Second"):
        for n in range(30):
            variants = f"{side}{n}A {{ n{n}a: u8 }}, {side}{n}B {{ n{n}b: String }}"
            lines.append(f"#[serde(untagged)]\nenum {side}{n} {{ {variants} }}\n")
        fields = "".join(f"    #[serde(flatten)]\n    f{n}: {side}{n},\n" for n in range(30))
        lines.append(f"struct {side} {{\n{fields}}}\n")
    lines.append("#[serde(untagged)]\nenum Way { A(First), B(Second) }\n")
    return "".join(lines)


def of_program(shapes, document, build="flattened"):
    """An input of the program, whose root is the last shape."""
    root = len(shapes) - 1
    found = {"shapes": shapes, "root": root, "build": build, "document": document}
    return json.dumps(found, ensure_ascii=False) + "\n"


def field(name, shape=0, **more):
    return {"name": name, "shape": shape, **more}


def struct(*fields):
    return {"id": "S", "kind": "struct", "fields": list(fields)}


def variant(name, *fields):
    return {"name": name, "kind": "struct", "fields": list(fields)}


def enum(*variants, **more):
    return {"id": "E", "kind": "enum", "variants": list(variants), **more}


def several_enums(count, variants, build, fields=3):
    """A struct that flattens enums whose variants have fields of their own, and the last variant
    of each as the document."""
    shapes, document = [TEXT], {}
    for n in range(count):
        names = [[f"{WORDS[k % 8]}_{n}_{k}_{it}" for it in range(fields)] for k in range(variants)]
        kinds = [variant(f"V{n}_{k}", *map(field, it)) for k, it in enumerate(names)]
        shapes.append(enum(*kinds))
        last = dict.fromkeys(names[-1], "")
        document |= {f"V{n}_{variants - 1}": last} if build == "external" else last
    flattened = (field(f"f{n}", n + 1, flatten=True) for n in range(count))
    return of_program([*shapes, struct(*flattened)], document, build)


def build_and_solve():
    """4 enums of 6 variants: 1,296 resolutions, and the keys of one."""
    return several_enums(4, 6, "flattened")


def build_and_solve_external():
    """The same, where a member of the variant's name tells each variant."""
    return several_enums(4, 6, "external")


def two_each(unit):
    """A struct that flattens 11 enums of two variants: 2,048 resolutions."""
    shapes = [TEXT]
    for n in range(11):
        names = (f"a{n}", f"b{n}")
        shapes.append(enum(*(variant(it, *([] if unit else [field(it)])) for it in names)))
    return [*shapes, struct(*(field(f"f{n}", n + 1, flatten=True) for n in range(11)))]


def no_key_none_fits():
    """2,048 resolutions with required fields, and no key."""
    return of_program(two_each(False), {})


def no_key_all_fit():
    """2,048 resolutions without fields, and no key."""
    return of_program(two_each(True), {})


def two_variants(**more):
    """A struct that flattens an enum of two variants with 400 fields each."""
    kinds = [[f"{WORDS[n % 8]}_{n}_{k}" for n in range(400)] for k in "ab"]
    told = enum(*(variant(it[0][-1].upper(), *map(field, it)) for it in kinds), **more)
    return [TEXT, told, struct(field("f", 1, flatten=True))], dict.fromkeys(kinds[1], "")


def one_enum():
    """An enum of two variants, told by the keys of one."""
    return of_program(*two_variants())


def one_enum_external():
    """The same, told by the name of the variant."""
    shapes, content = two_variants()
    return of_program(shapes, {"B": content}, "external")


def one_enum_adjacent():
    """The same, told by a tag beside the content."""
    shapes, content = two_variants(tag="t", content="c")
    return of_program(shapes, {"t": "B", "c": content}, "auto")


def required_fields():
    """A struct of 500 required fields, and all keys."""
    names = [f"{WORDS[n % 8]}_{n}" for n in range(500)]
    return of_program([TEXT, struct(*map(field, names))], dict.fromkeys(names, ""))


def nested_structs():
    """Structs, each a field of the next, and a document as deep as the program takes it."""
    levels = LEVELS_OF_PROGRAM - 1  # The input around the document is one more.
    shapes, document = [TEXT, struct(field("a"))], {"a": ""}
    for n in range(1, levels):
        shapes.append(struct(field("a", n)))
        document = {"a": document}
    return of_program(shapes, document)


def flattened_structs():
    """600 structs, each flattened in the next, with a field of its own."""
    shapes = [TEXT, struct(field("a0"))]
    shapes += [struct(field(f"a{n}"), field("f", n, flatten=True)) for n in range(1, 600)]
    return of_program(shapes, {f"a{n}": "" for n in range(600)})


def many_variants():
    """An enum of 1,000 variants, and one key."""
    kinds = [variant(f"V{n}", field(f"{WORDS[n % 8]}_{n}")) for n in range(1_000)]
    return of_program([TEXT, enum(*kinds), struct(field("f", 1, flatten=True))], {"order_500": ""})


def payloads():
    """A key under which each of 300 variants has another struct, told by a key below."""
    shapes = [TEXT, *(struct(field(f"{WORDS[n % 8]}_{n}")) for n in range(300))]
    kinds = [variant(f"V{n}", field("payload", n + 1)) for n in range(300)]
    shapes += [enum(*kinds), struct(field("f", 301, flatten=True))]
    return of_program(shapes, {"payload": {"channel_202": ""}})


def paths():
    """16 variants with a chain of 100 structs, of which the last tells them apart."""
    shapes, kinds = [TEXT], []
    for n in range(16):
        shapes.append(struct(field(f"end_{n}")))
        for _ in range(99):
            shapes.append(struct(field("a", len(shapes) - 1)))
        kinds.append(variant(f"V{n}", field("a", len(shapes) - 1)))
    shapes += [enum(*kinds), struct(field("f", len(shapes), flatten=True))]
    document = {"end_15": ""}
    for _ in range(100):
        document = {"a": document}
    return of_program(shapes, document)


RECIPES = {
    "needed.rs": needed_types,
    "unneeded.rs": unneeded_types,
    "faulty.rs": faulty_types,
    "deep.rs": deep_types,
    "service.rs": service_types,
    "lines.jsonl": lines,
    "services.json": services,
    "megabyte.json": megabyte,
    "fault_at_the_end.json": fault_at_the_end,
    "notice.rs": notice_types,
    "notices.json": notices,
    "chain.rs": chain_types,
    "deep.json": deep_document,
    "members.rs": members_types,
    "members.json": members,
    "fields.rs": fields_types,
    "fields.json": fields,
    "alternatives.rs": alternatives_types,
    "alternatives.json": alternatives,
    "tagged.rs": tagged_types,
    "equal.rs": equal_types,
    "selections.rs": selections_types,
    "build_and_solve.json": build_and_solve,
    "build_and_solve_external.json": build_and_solve_external,
    "no_key_none_fits.json": no_key_none_fits,
    "no_key_all_fit.json": no_key_all_fit,
    "one_enum.json": one_enum,
    "one_enum_external.json": one_enum_external,
    "one_enum_adjacent.json": one_enum_adjacent,
    "required_fields.json": required_fields,
    "nested_structs.json": nested_structs,
    "flattened_structs.json": flattened_structs,
    "many_variants.json": many_variants,
    "payloads.json": payloads,
    "paths.json": paths,
}
