#!/usr/bin/env python3
"""Writes the tables of the grammar from grammar/grammar.txt, which says what its lines mean.

  tools/grammar.py           writes the generated files
  tools/grammar.py --check   writes nothing, and fails where one of them is not up to date
"""
import os
import re
import sys

ROOT = os.path.dirname(os.path.dirname(os.path.abspath(__file__)))
NOTE = "Written by tools/grammar.py from grammar/grammar.txt."


class Field:
    def __init__(self, name, required, holds, argument):
        self.name, self.required, self.holds, self.argument = name, required, holds, argument
        self.typescript = False


class Grammar:
    def __init__(self, text):
        self.words, self.categories, self.kinds = {}, {}, {}
        self.conditions, self.settings, self.rules, self.roles = {}, {}, {}, {}
        self.typescript, self.typescript_of = set(), set()
        for line in text.splitlines():
            self.take(line.split("#")[0].strip())
        for kind, fields in self.kinds.items():
            for field in fields:
                field.typescript = field.name in self.typescript or (kind, field.name) in self.typescript_of
        used = {f.argument for fields in self.kinds.values() for f in fields if f.argument in self.kinds}
        used.add("Program")
        used |= {f.argument[1] for fields in self.kinds.values() for f in fields if f.holds == "Narrowed"}
        for kind in [k for k in self.kinds if k in used]:
            self.categories[kind] = [kind]

    def take(self, line):
        if not line:
            return
        first, _, rest = line.partition(" ")
        if first == "word":
            name, words = rest.split(" = ")
            self.words[name] = [w.replace("~", " ") for w in words.split()]
        elif first == "category":
            name, kinds = rest.split(" = ")
            self.categories[name] = [k for w in kinds.split() for k in self.categories.get(w, [w])]
        elif first in ("condition", "setting"):
            name, kinds = rest.split(" = ")
            (self.conditions if first == "condition" else self.settings)[name] = kinds.split()
        elif first == "rule":
            rule, kinds = rest.split(" = ")
            self.rules |= {k: rule.replace("~", " ") for k in kinds.split()}
        elif first == "role":
            role, kinds = rest.split(" = ")
            self.roles |= {k: role for k in kinds.split()}
        elif first == "typescript":
            names, _, kinds = rest.partition(" of ")
            for name in names.split():
                if kinds:
                    self.typescript_of |= {(k, name) for k in kinds.split()}
                else:
                    self.typescript.add(name)
        else:
            kind, _, fields = line.partition(":")
            self.kinds[kind] = [self.field(f.strip()) for f in fields.split(",") if f.strip()]

    def field(self, text):
        name, holds = text.split(" ", 1)
        required, name = name.endswith("!"), name.rstrip("!")
        simple = {"text": "Text", "text?": "TextOrNull", "flag": "Flag", "whole?": "WholeOrNull"}
        if holds in simple:
            return Field(name, required, simple[holds], None)
        if holds.startswith("word"):
            first, words = holds.split()
            return Field(name, required, "Word" if first == "word" else "WordOrNull", words)
        if holds.startswith("["):
            inner, end = holds[1:].split("]")
            if inner.endswith("?"):
                return Field(name, required, "ListOfNullable", inner[:-1])
            return Field(name, required, "ListOrNull" if end == "?" else "List", inner)
        if "|" in holds:
            return Field(name, required, "Narrowed", tuple(holds.split("|")))
        return Field(name, required, "NodeOrNull" if holds.endswith("?") else "Node", holds.rstrip("?"))

    def condition(self, kind):
        return next((name for name, kinds in self.conditions.items() if kind in kinds), "Nothing")

    def setting(self, kind):
        return next((name for name, kinds in self.settings.items() if kind in kinds), "Elsewhere")

    def is_typescript(self, kind):
        return kind.startswith("TS") or kind.startswith("JSDoc")

    def fields(self):
        """The key of each field, by the variant that stands for it, in the order in which they come first."""
        return {variant(f.name): f.name for fields in self.kinds.values() for f in fields}

    def all_words(self):
        seen = []
        for words in self.words.values():
            seen += [w for w in words if w not in seen]
        return seen


def word_variant(word):
    names = {"++": "Increment", "--": "Decrement", "await using": "AwaitUsing"}
    return names.get(word, word[:1].upper() + word[1:])


def holds_of(field, enum):
    argument = "" if field.argument is None else field.argument
    if field.holds == "Narrowed":
        wide, narrow = argument
        if enum == "antt":
            return f"(Holds.Narrowed Category.{wide} Category.{narrow})"
        return f"Holds::Narrowed(Category::{wide}, Category::{narrow})"
    if enum == "antt":
        inner = f" {('Words' if field.holds.startswith('Word') else 'Category')}.{argument}" if argument else ""
        return f"(Holds.{field.holds}{inner})" if inner else f"Holds.{field.holds}"
    inner = f"({('Words' if field.holds.startswith('Word') else 'Category')}::{argument})" if argument else ""
    return f"Holds::{field.holds}{inner}"


def slice_of(name, items, indent=12):
    """The items as a slice in the arm of that name, in the formatter's layout."""
    inline, margin = ", ".join(items), " " * indent
    if len(inline) <= 60 and len(f"{margin}{name} => &[{inline}],") <= 100:
        return f"&[{inline}]"
    return "&[\n" + "".join(f"{margin}    {item},\n" for item in items) + f"{margin}]"


def variant(field):
    """The variant that stands for the field of that key."""
    return field[:1].upper() + field[1:]


def variants(names):
    return "\n".join(f"    {name}," for name in names)


# How many variants one function tells apart: the proof of a match grows faster than its arms.
PART = 46


def parts(variants):
    """The variants, so many at a time, with the number of the next part: none behind the last."""
    split = [variants[i : i + PART] for i in range(0, len(variants), PART)]
    return [(part, i, i + 1 if i < len(split) else None) for i, part in enumerate(split, 1)]


def part_name(name, number):
    """The name of what tells the variants of that part and of those behind it."""
    return name if number == 1 else f"{name}_{number}"


def part_names(name, variants):
    return ", ".join(part_name(name, number) for _, number, _ in parts(variants))


def name_functions(enum, texts, spec, doc):
    """The functions that answer the text of a variant of the enum."""
    functions = []
    for part, number, behind in parts(list(texts)):
        arms = "\n".join(f"            {enum}::{variant} => \"{texts[variant]}\"," for variant in part)
        rest = f"self.{part_name('name', behind)}()" if behind else '""'
        functions.append(f"""    /// {doc if number == 1 else 'The same, behind those above.'}
    {'pub ' if number == 1 else ''}fn {part_name('name', number)}(self) -> &'static str
        ensures {{ result.now ≡ {part_name(spec, number)} self }}
    {{
        match self {{
{arms}
            _ => {rest},
        }}
    }}
""")
    return "\n".join(functions)


def kind_source(g):
    named = part_names("name_of", list(g.kinds))
    names = name_functions("Kind", {k: k for k in g.kinds}, "name_of", "The text that a tree's JSON has for the kind.")
    typescript = "\n".join(f"            Kind::{k} => true," for k in g.kinds if g.is_typescript(k))
    return f"""// {NOTE}
ghost use Rattle.std.specs.Prelude.{{◌≡◌}};
ghost use Rattle.oxt_grammar.specs.Kinds.{{{named}, is_typescript_kind}};

/// What a node is: the text of its `type`.
#[derive(Clone, Copy, PartialEq, Eq)]
pub enum Kind {{
{variants(g.kinds)}
}}

impl Kind {{
{names}
    /// Whether the kind is one of TypeScript alone.
    pub fn is_typescript(self) -> bool
        ensures {{ result ≡ is_typescript_kind self }}
    {{
        match self {{
{typescript}
            _ => false,
        }}
    }}
}}
"""


def context_source(g):
    conditions = "\n".join(f"            Kind::{k} => Condition::{g.condition(k)}," for k in g.kinds if g.condition(k) != "Nothing")
    settings = "\n".join(f"            Kind::{k} => Setting::{g.setting(k)}," for k in g.kinds if g.setting(k) != "Elsewhere")
    return f"""// {NOTE}
ghost use Rattle.std.specs.Prelude.{{◌≡◌}};
ghost use Rattle.oxt_grammar.specs.Context.{{condition_of, setting_of}};

use crate::kind::Kind;

/// A condition on a node beside what its fields hold.
#[derive(Clone, Copy)]
pub enum Condition {{
    Nothing,
{variants(g.conditions)}
}}

/// What a node stands directly in, as far as that narrows what its fields hold.
#[derive(Clone, Copy)]
pub enum Setting {{
    Elsewhere,
{variants(g.settings)}
}}

impl Kind {{
    /// The condition that a node of this kind has to meet beside what its fields hold.
    pub fn condition(self) -> Condition
        ensures {{ result ≡ condition_of self }}
    {{
        match self {{
{conditions}
            _ => Condition::Nothing,
        }}
    }}

    /// What the nodes in the fields of a node of this kind stand in.
    pub fn setting(self) -> Setting
        ensures {{ result ≡ setting_of self }}
    {{
        match self {{
{settings}
            _ => Setting::Elsewhere,
        }}
    }}
}}
"""


def context_spec(g):
    conditions = "\n".join(f"condition_of kind.{k} = condition.{g.condition(k)}" for k in g.kinds if g.condition(k) != "Nothing")
    settings = "\n".join(f"setting_of kind.{k} = setting.{g.setting(k)}" for k in g.kinds if g.setting(k) != "Elsewhere")
    return f"""-- {NOTE}
use Rattle.oxt_grammar.specs.declared.kind.Kind.{{Kind}}
use Rattle.oxt_grammar.specs.declared.kind.Kind.TheVariants as kind
use Rattle.oxt_grammar.specs.declared.context.Condition.{{Condition}}
use Rattle.oxt_grammar.specs.declared.context.Condition.TheVariants as condition
use Rattle.oxt_grammar.specs.declared.context.Setting.{{Setting}}
use Rattle.oxt_grammar.specs.declared.context.Setting.TheVariants as setting

-- the condition that a node has to meet beside what its fields hold
abbrev pub condition_of : Kind → Condition
{conditions}
condition_of k = condition.Nothing

-- what the nodes in its fields stand in
abbrev pub setting_of : Kind → Setting
{settings}
setting_of k = setting.Elsewhere
"""


def names_spec(enum, prefix, texts, spec, doc):
    """The definitions of the text of a variant of the enum, whose variants have that prefix."""
    definitions = []
    for part, number, behind in reversed(parts(list(texts))):
        name = part_name(spec, number)
        clauses = "\n".join(f"{name} {prefix}{variant} = codes \"{texts[variant]}\"" for variant in part)
        rest = f"{part_name(spec, behind)} x" if behind else "[]"
        says = doc if number == 1 else "the same, behind those of the parts before"
        definitions.append(f"-- {says}\nabbrev pub {name} : {enum} → List ℕ\n{clauses}\n{name} x = {rest}\n")
    return "\n".join(definitions)


def each_field_proof(g):
    cases = "\n".join(f"field_of-key field.{field} = refl" for field in g.fields())
    return f"""-- {NOTE}
-- The field of a key.
use Rattle.std.proofs.Common.{{◌≡◌, refl, ℕ, List, [], ◌∷◌, Option, Some, bytes_eq}}
use Rattle.std.specs.Prelude.{{find}}
use Rattle.oxt_grammar.specs.Keys.{{key_of}}
use Rattle.oxt_grammar.specs.declared.field.Field.{{Field}}
use Rattle.oxt_grammar.specs.declared.field.Field.TheVariants as field

-- each field
pub fields : List Field
fields = {" ∷ ".join(f"field.{field}" for field in g.fields())} ∷ []

-- the field of that key
unfoldable pub field_of : List ℕ → Option Field
field_of key = find (λ f. bytes_eq (key_of f) key) fields

pub field_of-key : (f : Field) → field_of (key_of f) ≡ Some f
unfolding field_of fields
{cases}
"""


def fields_source(g):
    texts = g.fields()
    names = name_functions("Field", texts, "key_of", "The key that a tree's JSON has for the field.")
    return f"""// {NOTE}
ghost use Rattle.std.specs.Prelude.{{◌≡◌}};
ghost use Rattle.oxt_grammar.specs.Keys.{{{part_names("key_of", list(texts))}}};

/// A field of a node, by its name; which kinds have it, the rows tell.
#[derive(Clone, Copy, PartialEq, Eq)]
pub enum Field {{
{variants(texts)}
}}

impl Field {{
{names}}}
"""


def keys_spec(g):
    texts = g.fields()
    return f"""-- {NOTE}
use Rattle.std.specs.Prelude.{{ℕ, List, [], codes}}
use Rattle.oxt_grammar.specs.declared.field.Field.{{Field}}
use Rattle.oxt_grammar.specs.declared.field.Field.TheVariants as field

{names_spec("Field", "field.", texts, "key_of", "the key that a tree's JSON has for a field")}"""


def kinds_spec(g):
    typescript = "\n".join(f"is_typescript_kind {k} = true" for k in g.kinds if g.is_typescript(k))
    return f"""-- {NOTE}
use Rattle.std.specs.Prelude.{{ℕ, List, [], Bool, true, false, codes}}
use Rattle.oxt_grammar.specs.declared.kind.Kind.{{Kind}}
use Rattle.oxt_grammar.specs.declared.kind.Kind.TheVariants.{{{", ".join(g.kinds)}}}

{names_spec("Kind", "", {k: k for k in g.kinds}, "name_of", "the text that a tree's JSON has for a kind")}
-- whether a kind is one of TypeScript alone
abbrev pub is_typescript_kind : Kind → Bool
{typescript}
is_typescript_kind k = false
"""


def category_source(g):
    arms = "\n".join(
        f"            Category::{c} => {slice_of('Category::' + c, ['Kind::' + k for k in kinds])}," for c, kinds in g.categories.items())
    return f"""// {NOTE}
ghost use Rattle.std.specs.Prelude.{{◌≡◌, find}};
ghost use Rattle.std.specs.Str.{{bytes_eq}};
ghost use Rattle.oxt_grammar.specs.Kinds.{{name_of}};
ghost use Rattle.oxt_grammar.specs.Categories.{{kinds_in}};

use crate::kind::Kind;

/// A set of kinds that may stand at a place.
#[derive(Clone, Copy)]
pub enum Category {{
{variants(g.categories)}
}}

impl Category {{
    /// The kinds of the category, in the order of the grammar.
    #[tactic(auto, unfolding(crate::specs::Categories::kinds_in))]
    pub fn kinds(self) -> &'static [Kind]
        ensures {{ result.now ≡ kinds_in self }}
    {{
        match self {{
{arms}
        }}
    }}

    /// The kind of the category whose name is `text`.
    pub fn find(self, text: &str) -> Option<Kind>
        ensures {{ result ≡ find (λ k. bytes_eq (name_of k) text.now) (kinds_in self) }}
    {{
        self.kinds()
            .iter()
            .copied()
            .find(|kind| kind.name() == text)
    }}
}}
"""


def categories_spec(g):
    rows = "\n".join(f"kinds_in category.{c} = {' ∷ '.join('kind.' + k for k in kinds)} ∷ []" for c, kinds in g.categories.items())
    return f"""-- {NOTE}
use Rattle.std.specs.Prelude.{{List, [], ◌∷◌}}
use Rattle.oxt_grammar.specs.declared.kind.Kind.{{Kind}}
use Rattle.oxt_grammar.specs.declared.kind.Kind.TheVariants as kind
use Rattle.oxt_grammar.specs.declared.category.Category.{{Category}}
use Rattle.oxt_grammar.specs.declared.category.Category.TheVariants as category

-- the kinds of a category, in the order of the grammar
unfoldable pub kinds_in : Category → List Kind
{rows}
"""


def word_source(g):
    all_words = g.all_words()
    texts = "\n".join(f"            Word::{word_variant(w)} => \"{w}\"," for w in all_words)
    arms = "\n".join(
        f"            Words::{n} => {slice_of('Words::' + n, ['Word::' + word_variant(w) for w in words])}," for n, words in g.words.items())
    return f"""// {NOTE}
ghost use Rattle.std.specs.Prelude.{{◌≡◌, find}};
ghost use Rattle.std.specs.Str.{{bytes_eq}};
ghost use Rattle.oxt_grammar.specs.Words.{{text_of, words_in}};

/// A word that a field may hold.
#[derive(Clone, Copy)]
pub enum Word {{
{variants(map(word_variant, all_words))}
}}

impl Word {{
    /// The text that a tree's JSON has for the word.
    pub fn text(self) -> &'static str
        ensures {{ result.now ≡ text_of self }}
    {{
        match self {{
{texts}
        }}
    }}
}}

/// The words that a field may hold, named after the field.
#[derive(Clone, Copy)]
pub enum Words {{
{variants(g.words)}
}}

impl Words {{
    /// The words of the list; the first is the default of a field that need not be there.
    pub fn all(self) -> &'static [Word]
        ensures {{ result.now ≡ words_in self }}
    {{
        match self {{
{arms}
        }}
    }}

    /// The word of the list whose text is `text`.
    pub fn find(self, text: &str) -> Option<Word>
        ensures {{ result ≡ find (λ w. bytes_eq (text_of w) text.now) (words_in self) }}
    {{
        self.all().iter().copied().find(|word| word.text() == text)
    }}
}}
"""


def words_spec(g):
    texts = "\n".join(f"text_of word.{word_variant(w)} = codes \"{w}\"" for w in g.all_words())
    lists = "\n".join(
        f"words_in words.{n} = {' ∷ '.join('word.' + word_variant(w) for w in words)} ∷ []" for n, words in g.words.items())
    return f"""-- {NOTE}
use Rattle.std.specs.Prelude.{{ℕ, List, [], ◌∷◌, codes}}
use Rattle.oxt_grammar.specs.declared.word.Word.{{Word}}
use Rattle.oxt_grammar.specs.declared.word.Word.TheVariants as word
use Rattle.oxt_grammar.specs.declared.word.Words.{{Words}}
use Rattle.oxt_grammar.specs.declared.word.Words.TheVariants as words

-- the text that a tree's JSON has for a word
abbrev pub text_of : Word → List ℕ
{texts}

-- the words of a list
abbrev pub words_in : Words → List Word
{lists}
"""


def presence(field):
    return "Required" if field.required else "TypeScript" if field.typescript else "Optional"


def row_arms(g, part):
    arms = ""
    for kind in part:
        fields = g.kinds[kind]
        rows = "".join(f"                {variant(f.name)} {presence(f)} {holds_of(f, 'rust')},\n" for f in fields)
        arms += f"            {kind} {{\n{rows}            }}\n" if fields else f"            {kind} {{}}\n"
    return arms


def row_functions(g):
    functions = []
    for part, number, behind in parts(list(g.kinds)):
        rest = f"self.{part_name('rows', behind)}()" if behind else "&[]"
        spec = part_name("row_of", number)
        doc = "The fields of a node of this kind, in the order in which they are checked." if number == 1 else "The same, behind the kinds above."
        unfolding = "    #[tactic(auto, unfolding(crate::specs::Rows::row_of))]\n" if number == 1 else ""
        functions.append(f"""    /// {doc}
{unfolding}    {'pub ' if number == 1 else ''}fn {part_name('rows', number)}(self) -> &'static [Row]
        ensures {{ map row_view result.now ≡ {spec} self }}
    {{
        rows! {{ self; {rest};
{row_arms(g, part)}        }}
    }}
""")
    return "\n".join(functions)


def row_source(g):
    named = part_names("row_of", list(g.kinds))
    return f"""// {NOTE}
ghost use Rattle.std.specs.Prelude.{{◌≡◌, map}};
ghost use Rattle.oxt_grammar.specs.Field.{{row_view}};
ghost use Rattle.oxt_grammar.specs.Rows.{{{named}}};

use crate::category::Category;
use crate::field::Field;
use crate::holds::{{Holds, Presence, Row}};
use crate::kind::Kind;
use crate::word::Words;

macro_rules! rows {{
    ($kind:expr; $rest:expr; $($name:ident {{ $($field:ident $presence:ident $holds:expr,)* }})*) => {{
        match $kind {{
            $(Kind::$name => &[
                $(Row {{ field: Field::$field, holds: $holds, presence: Presence::$presence }}),*
            ],)*
            _ => $rest,
        }}
    }};
}}

impl Kind {{
{row_functions(g)}}}
"""


def rows_spec(g):
    def rule(f):
        return f"field (codes \"{f.name}\") {holds_of(f, 'antt')} Presence.{presence(f)}"
    texts = []
    for part, number, behind in reversed(parts(list(g.kinds))):
        name = part_name("row_of", number)
        lines = ""
        for kind in part:
            rows = " ∷\n    ".join(rule(f) for f in g.kinds[kind])
            lines += f"{name} kind.{kind} =\n    {rows} ∷ []\n" if rows else f"{name} kind.{kind} = []\n"
        lines += f"{name} k = {part_name('row_of', behind)} k\n" if behind else f"{name} k = []\n"
        doc = "the fields of a node of a kind, in the order in which they are checked" if number == 1 else "the same, behind the kinds of the parts before"
        texts.append(f"-- {doc}\n{'unfoldable' if number == 1 else 'abbrev'} pub {name} : Kind → List Field\n{lines}")
    lines = "\n".join(texts)
    return f"""-- {NOTE}
use Rattle.std.specs.Prelude.{{List, [], ◌∷◌, codes}}
use Rattle.oxt_grammar.specs.Field.{{Field, field}}
use Rattle.oxt_grammar.specs.declared.kind.Kind.{{Kind}}
use Rattle.oxt_grammar.specs.declared.kind.Kind.TheVariants as kind
use Rattle.oxt_grammar.specs.declared.category.Category.TheVariants as Category
use Rattle.oxt_grammar.specs.declared.word.Words.TheVariants as Words
use Rattle.oxt_grammar.specs.declared.holds.Holds.TheVariants as Holds
use Rattle.oxt_grammar.specs.declared.holds.Presence.TheVariants as Presence

{lines}"""


def match_on_kind(arms, rest=None):
    """The body of a function that goes by the kind: the answer for each, and for all others."""
    lines = [f"        Kind::{kind} => {answer}," for kind, answer in arms]
    if rest is not None:
        lines.append(f"        _ => {rest},")
    return "{\n    match kind {\n" + "\n".join(lines) + "\n    }\n}\n"


def rule_term(rule, spec):
    """A rule such as `Spelled Str`, whose argument is a kind of items, a binding or a flag."""
    name, _, argument = rule.partition(" ")
    item, binding = ("item.", "binding.") if spec else ("ItemKind::", "Binding::")
    argument = {"Spelled": item, "Literal": item, "Binds": binding}.get(name, "") + argument
    if spec:
        return f"(rule.{name} {argument})" if argument else f"rule.{name}"
    return f"Rule::{name}({argument})" if argument else f"Rule::{name}"


def word_rules_source(g):
    arms = [(k, rule_term(g.rules.get(k, "Plain"), False)) for k in g.kinds]
    return f"""// {NOTE}
ghost use Rattle.std.specs.Prelude.{{◌≡◌}};
ghost use Rattle.oxt_items.specs.RuleOf.{{rule_of}};

use crate::rule::Rule;
use oxt_facts::item::{{Binding, ItemKind}};
use oxt_grammar::kind::Kind;

/// The rule by which nodes of the kind are read.
#[tactic(auto, unfolding(crate::specs::RuleOf::rule_of))]
pub fn rule_of(kind: Kind) -> Rule
    ensures {{ result ≡ rule_of kind }}
{match_on_kind(arms)}"""


def word_rules_spec(g):
    kinds = "\n".join(f"rule_of {k} = {rule_term(g.rules.get(k, 'Plain'), True)}" for k in g.kinds)
    return f"""-- {NOTE}
use Rattle.std.specs.Prelude.{{true, false}}
use Rattle.oxt_grammar.specs.declared.kind.Kind.{{Kind}}
use Rattle.oxt_grammar.specs.declared.kind.Kind.TheVariants.{{{", ".join(g.kinds)}}}
use Rattle.oxt_facts.specs.declared.item.Binding.TheVariants as binding
use Rattle.oxt_facts.specs.declared.item.ItemKind.TheVariants as item
use Rattle.oxt_items.specs.declared.rule.Rule.{{Rule}}
use Rattle.oxt_items.specs.declared.rule.Rule.TheVariants as rule

-- the rule by which nodes of the kind are read
unfoldable pub rule_of : Kind → Rule
{kinds}
"""


def field_text(f):
    argument = "" if f.argument is None else f.argument
    forms = {
        "Text": "text", "TextOrNull": "text or null", "Flag": "flag", "WholeOrNull": "whole number or null",
        "Word": f"one of {argument}", "WordOrNull": f"one of {argument}, or null",
        "Node": argument, "NodeOrNull": f"{argument} or null", "List": f"list of {argument}",
        "ListOfNullable": f"list of {argument} and nulls", "ListOrNull": f"list of {argument}, or null",
    }
    if f.holds == "Narrowed":
        holds = f"{argument[0]}, in a named export without source {argument[1]}"
    else:
        holds = forms[f.holds]
    marks = (["has to be there"] if f.required else []) + (["TypeScript's"] if f.typescript else [])
    return f"| `{f.name}` | {holds} | {', '.join(marks)} |\n"


def grammar_doc(g):
    words = "".join(f"| {n} | {', '.join(f'`{w}`' for w in ws)} |\n" for n, ws in g.words.items())
    categories = "".join(f"- **{c}**: {', '.join(ks)}\n" for c, ks in g.categories.items() if ks != [c])
    kinds = ""
    for kind, fields in g.kinds.items():
        notes = ["TypeScript's"] if g.is_typescript(kind) else []
        notes += [f"condition {g.condition(kind)}"] if g.condition(kind) != "Nothing" else []
        kinds += f"\n### {kind}\n\n" + (f"{'; '.join(notes)}.\n\n" if notes else "")
        if fields:
            kinds += "| Field | Holds | |\n|---|---|---|\n" + "".join(map(field_text, fields))
        else:
            kinds += "No fields are read.\n"
    return f"""# The grammar of the tree

{NOTE}

A node is a JSON object with `type` (its kind), `start` and `end` (whole numbers below 2^32, 0 where they are left
out) and the fields of its kind. Unknown fields are ignored; of two equal keys the last counts. A field that need not
be there stands at its default where it is left out: null, false, the first word, or the empty list. A tree is checked
node by node: that it is an object, its `type`, `start`, `end`, the fields in the order below, each with all that it
holds, and then its condition. The first wrong value is the one that is named.

## Words

| List | Words |
|---|---|
{words}
## Categories

{categories}
## Conditions

| Condition | The node fails | at |
|---|---|---|
| ElementKey | where a name or a private name is a computed key, or another key but a text, a number or a big integer is not | `computed` |
| PlainKey, TargetKey | the same, and where a private name is the key | `computed` |
| Number | with neither a value nor a raw text | `value` |
| Chain | where its element is a `!` that holds, through wrappers and parentheses, neither a call nor a member | `expression` |
| Template | unless it has one text more than expressions | `quasis` |
| EnumMember | where a template names it that is not computed, has an expression or has no cooked text, or a computed name | `id` |
| Constructors | with two constructors that have a body, or a static one | `body` |
| NamedDeclaration | without a name, unless it stands directly in a default export | `id` |
| LiteralType | where a sign stands before anything but a number, a big integer or a text | `literal` |

## Kinds
{kinds}"""


def roles_by_kind(g):
    """The role of each kind that has one; a category stands for its kinds."""
    found = {}
    for name, role in g.roles.items():
        found |= {kind: role for kind in g.categories.get(name, [name])}
    return [(kind, found[kind]) for kind in g.kinds if kind in found]


def roles_source(g):
    arms = [(kind, f"Role::{role}") for kind, role in roles_by_kind(g)]
    return f"""// {NOTE}
//! What nodes of a kind are to scopes.
ghost use Rattle.std.specs.Prelude.{{◌≡◌}};
ghost use Rattle.oxt_declares.specs.RoleOf.{{role_of}};

use crate::role::Role;
use oxt_grammar::kind::Kind;

/// The role of a kind.
#[tactic(auto, unfolding(crate::specs::RoleOf::role_of))]
pub fn role_of(kind: Kind) -> Role
    ensures {{ result ≡ role_of kind }}
{match_on_kind(arms, "Role::Plain")}"""


def each_kind_proof(g):
    cases = "\n".join(f"kind_of-name kind.{kind} = refl" for kind in g.kinds)
    return f"""-- {NOTE}
-- The kind of a name.
use Rattle.std.proofs.Common.{{◌≡◌, refl, ℕ, List, [], ◌∷◌, Option, Some, bytes_eq}}
use Rattle.std.specs.Prelude.{{find}}
use Rattle.oxt_grammar.specs.Kinds.{{name_of}}
use Rattle.oxt_grammar.specs.declared.kind.Kind.{{Kind}}
use Rattle.oxt_grammar.specs.declared.kind.Kind.TheVariants as kind

-- each kind
pub kinds : List Kind
kinds = {" ∷ ".join(f"kind.{kind}" for kind in g.kinds)} ∷ []

-- the kind of that name
unfoldable pub kind_of : List ℕ → Option Kind
kind_of name = find (λ k. bytes_eq (name_of k) name) kinds

pub kind_of-name : (k : Kind) → kind_of (name_of k) ≡ Some k
unfolding kind_of kinds
{cases}
"""


def roles_spec(g):
    cases = "\n".join(f"role_of kind.{kind} = role.{role}" for kind, role in roles_by_kind(g))
    return f"""-- {NOTE}
-- What nodes of a kind are to scopes.
use Rattle.oxt_grammar.specs.declared.kind.Kind.{{Kind}}
use Rattle.oxt_grammar.specs.declared.kind.Kind.TheVariants as kind
use Rattle.oxt_declares.specs.declared.role.Role.{{Role}}
use Rattle.oxt_declares.specs.declared.role.Role.TheVariants as role

-- the role of a kind
unfoldable pub role_of : Kind → Role
{cases}
role_of k = role.Plain
"""


def slots_of(fields):
    """What stands in the object of a node with these fields, in the order of the bytes of the keys."""
    slots = [("type", "Type"), ("start", "Start"), ("end", "End")]
    slots += [(field.name, f"Field({place})") for place, field in enumerate(fields)]
    return [slot for _, slot in sorted(slots, key=lambda slot: slot[0].encode())]


def order_source(g):
    functions = []
    for part, number, behind in parts(list(g.kinds)):
        name, spec = part_name("order_of", number), part_name("order_of", number)
        arms = [(kind, slice_of(f"Kind::{kind}", slots_of(g.kinds[kind]), 8)) for kind in part]
        doc = ORDER if number == 1 else "The same, behind the kinds above."
        unfolding = "#[tactic(auto, unfolding(crate::specs::Order::order_of))]\n" if number == 1 else ""
        functions.append(f"""/// {doc}
{unfolding}{'pub ' if number == 1 else ''}fn {name}(kind: Kind) -> &'static [Slot]
    ensures {{ result.now ≡ {spec} kind }}
{match_on_kind(arms, f"{part_name('order_of', behind)}(kind)" if behind else "&[]")}""")
    functions = "\n".join(functions)
    return f"""// {NOTE}
//! The order in which the members of an object are written.
ghost use Rattle.std.specs.Prelude.{{◌≡◌}};
ghost use Rattle.oxt_json.specs.Order.{{{part_names("order_of", list(g.kinds))}}};

use crate::slot::Slot;
use crate::slot::Slot::{{End, Field, Start, Type}};
use oxt_grammar::kind::Kind;

{functions}"""


ORDER = "What stands in the object of a node of the kind, in the order of the bytes of the keys."


def order_spec(g):
    def term(slot):
        return f"slot.{slot}".replace("(", " ").rstrip(")")
    texts = []
    for part, number, behind in reversed(parts(list(g.kinds))):
        name = part_name("order_of", number)
        lines = "".join(f"{name} kind.{kind} = {' ∷ '.join(map(term, slots_of(g.kinds[kind])))} ∷ []\n" for kind in part)
        lines += f"{name} k = {part_name('order_of', behind)} k\n" if behind else f"{name} k = []\n"
        doc = "what stands in the object of a node of a kind, in the order of the bytes of the keys" if number == 1 else "the same, behind the kinds of the parts before"
        texts.append(f"-- {doc}\n{'unfoldable' if number == 1 else 'abbrev'} pub {name} : Kind → List Slot\n{lines}")
    lines = "\n".join(texts)
    return f"""-- {NOTE}
-- The order in which the members of an object are written.
use Rattle.std.specs.Prelude.{{List, [], ◌∷◌}}
use Rattle.oxt_grammar.specs.declared.kind.Kind.{{Kind}}
use Rattle.oxt_grammar.specs.declared.kind.Kind.TheVariants as kind
use Rattle.oxt_json.specs.declared.slot.Slot.{{Slot}}
use Rattle.oxt_json.specs.declared.slot.Slot.TheVariants as slot

{lines}"""


def order_proof(g):
    cases = "\n".join(f"ordered kind.{kind} = (refl, refl)" for kind in g.kinds)
    return f"""-- {NOTE}
-- The table has what stands in the object of a node of each kind in its order.
use Rattle.std.proofs.Common.{{refl}}
use Rattle.oxt_grammar.specs.Rows.{{row_of}}
use Rattle.oxt_grammar.specs.declared.kind.Kind.{{Kind}}
use Rattle.oxt_grammar.specs.declared.kind.Kind.TheVariants as kind
use Rattle.oxt_json.proofs.Insertion.{{IsInserted}}
use Rattle.oxt_json.specs.Order.{{order_of}}

pub ordered : (k : Kind) → IsInserted (row_of k) (order_of k)
unfolding row_of order_of
{cases}
"""


def write(path, text, check):
    full = os.path.join(ROOT, path)
    old = open(full, encoding="utf-8").read() if os.path.exists(full) else None
    if old == text:
        return True
    if check:
        print(f"{path} is not up to date with grammar/grammar.txt: run {os.path.relpath(sys.argv[0], ROOT)}")
        return False
    os.makedirs(os.path.dirname(full), exist_ok=True)
    with open(full, "w", encoding="utf-8") as out:
        out.write(text)
    return True


def main():
    check = "--check" in sys.argv[1:]
    g = Grammar(open(os.path.join(ROOT, "grammar/grammar.txt"), encoding="utf-8").read())
    table = "crates/oxt_grammar/"
    files = {
        table + "src/kind.rt": kind_source(g),
        table + "src/field.rt": fields_source(g),
        table + "specs/Keys.antt": keys_spec(g),
        table + "src/category.rt": category_source(g),
        table + "src/word.rt": word_source(g),
        table + "src/context.rt": context_source(g),
        table + "specs/Context.antt": context_spec(g),
        table + "src/row.rt": row_source(g),
        table + "specs/Kinds.antt": kinds_spec(g),
        table + "specs/Words.antt": words_spec(g),
        table + "specs/Rows.antt": rows_spec(g),
        table + "specs/Categories.antt": categories_spec(g),
        table + "proofs/EachKind.antt": each_kind_proof(g),
        table + "proofs/EachField.antt": each_field_proof(g),
        "docs/GRAMMAR.md": grammar_doc(g),
        "crates/oxt_json/src/order.rt": order_source(g),
        "crates/oxt_json/specs/Order.antt": order_spec(g),
        "crates/oxt_json/proofs/InOrder.antt": order_proof(g),
        "crates/oxt_declares/src/role_of.rt": roles_source(g),
        "crates/oxt_declares/specs/RoleOf.antt": roles_spec(g),
        "crates/oxt_items/src/rule_of.rt": word_rules_source(g),
        "crates/oxt_items/specs/RuleOf.antt": word_rules_spec(g),
    }
    sys.exit(0 if all([write(path, text, check) for path, text in files.items()]) else 1)


if __name__ == "__main__":
    main()
