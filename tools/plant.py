"""Plants bugs in the passes, one at a time, in a copy of the repository, and tells what the program then answers of a
tree: each has to end in `uncertified`, with nothing written. Nothing is proved of the copy: `rt try` runs it.

    python3 tools/plant.py

The number of the bug is where the program's span starts, so that one program serves for all; 0 plants none. Bugs of the pass
that erases types stand in place of one of its hooks, on examples/forms.json. Those of the other passes leave out one of their
hooks, or put something else at one place of what they have made: for enums on examples/enums.json, for namespaces, modules
and the extensions in their names on examples/namespaces.json, for classes on examples/fields.json, where fields move and empty ones
go, where empty ones go, and where all stay, for decorators on examples/decorators.json, and for their metadata on
examples/metadata.json, and on examples/decorators.json once more."""
import json
import re
import shutil
import subprocess
import sys
import tempfile
from pathlib import Path

TOP = Path(__file__).resolve().parent.parent
FLAGS = ("--optimize-enums", "--optimize-const-enums", "--module=commonjs", "--rewrite-extensions=rewrite")
MOVED, DROPPED = ("--set-public-class-fields", "--remove-empty-fields"), ("--remove-empty-fields",)
ENUMS, NAMESPACES = "crates/oxt_lower/src/pass.rt", "crates/oxt_lower/src/namespace.rt"
MODULES, EXTENSIONS = "crates/oxt_erase/src/module.rt", "crates/oxt_erase/src/extensions.rt"
CLASSES, DECORATORS = "crates/oxt_class/src/pass.rt", "crates/oxt_decor/src/legacy.rt"
METADATA, COMPOSED = "crates/oxt_decor/src/metadata.rt", "crates/oxt_transform/src/typescript.rt"
LEGACY, TYPED = ("--legacy",), ("--legacy", "--emit-decorator-metadata")
NOTHING = "{}"
GONE = "Part::List(Vec::new(*node.parts.allocator()))"

# The hook, and what it does in place of its own work.
ERASER_BUGS = [
    ("program", NOTHING),
    ("program", "clear_types(node)?; node.parts[0] = Part::Word(Word::Script);"),
    ("statements", NOTHING),
    ("statements", "statements.clear();"),
    ("statements", "drop_erased(statements); let _last = statements.pop();"),
    ("expression", NOTHING),
    ("class", NOTHING),
    ("class", "clear_types(node)?; node.parts[3] = Part::Nothing;"),
    ("class", "clear_types(node)?; node.parts[1] = Part::Nothing;"),
    ("method_definition", "clear_types(node)?; node.parts[4] = Part::Flag(true);"),
    ("property_definition", NOTHING),
    ("property_definition", "clear_types(node)?; node.parts[11] = Part::Nothing;"),
    ("property_definition", "clear_types(node)?; node.parts[3] = Part::Flag(false);"),
    ("function", NOTHING),
    ("function", "clear_types(node)?; node.parts[2] = Part::Flag(true);"),
    ("arrow_function_expression", NOTHING),
    ("arrow_function_expression", "clear_types(node)?; node.parts[0] = Part::Flag(true);"),
    ("variable_declarator", NOTHING),
    ("variable_declarator", "clear_types(node)?; node.parts[3] = Part::Nothing;"),
    ("call_expression", NOTHING),
    ("call_expression", f"clear_types(node)?; node.parts[2] = {GONE};"),
    ("new_expression", NOTHING),
    ("new_expression", f"clear_types(node)?; node.parts[2] = {GONE};"),
    ("tagged_template_expression", NOTHING),
    ("formal_parameter", NOTHING),
    ("formal_parameter", "clear_types(node)?; node.parts[7] = Part::Nothing;"),
    ("formal_parameter_rest", NOTHING),
    ("catch_parameter", NOTHING),
]

# Hooks of a pass that do nothing: nothing is lowered, nothing inlined, nothing dropped.
LEFT_OUT_OF_ENUMS = [(ENUMS, "EnterStatement"), (ENUMS, "EnterExpression"), (ENUMS, "ExitStatements")]
LEFT_OUT_OF_MODULES = [
    (NAMESPACES, "EnterProgram"),
    (MODULES, "EnterStatement"),
    (MODULES, "EnterDeclaration"),
    (EXTENSIONS, "EnterImportDeclaration"),
    (EXTENSIONS, "EnterExportAllDeclaration"),
    (EXTENSIONS, "EnterImportExpression"),
]

# The calls of a first block and of an exported one, and the statements in their functions.
FIRST, EXPORTED = "body.0.declarations.0.init", "body.1.declaration.declarations.0.init"
IN_FIRST, IN_EXPORTED = f"{FIRST}.callee.body.statements", f"{EXPORTED}.callee.body.statements"
NEW_OBJECT = "Part::Node(empty_object(alloc, ids)?)"


def text(spelling):
    return f'Part::Text(Name::new(alloc, "{spelling}")?)'


def name(spelling):
    return f'Part::Node(reference(alloc, &Name::new(alloc, "{spelling}")?, ids)?)'


# A place in the tree that was lowered, and what comes there in place of `old`.
ENUM_BUGS = [
    ("body.0.kind", "Part::Word(Word::Let)"),
    ("body.4.body.0.kind", "Part::Word(Word::Var)"),
    (f"{FIRST}.pure", "Part::Flag(true)"),
    (f"{EXPORTED}.pure", "Part::Flag(false)"),
    (f"{FIRST}.arguments.0", NEW_OBJECT),
    (f"{EXPORTED}.arguments.0", name("X")),
    (f"{FIRST}.callee.params.items.0.pattern.name", text("X")),
    (f"{IN_FIRST}.0.expression", 'inside(inside(old, Field::Left), Field::Expression)'),
    (f"{IN_FIRST}.0.expression.left.expression.right.value", "Part::Number(1)"),
    (f"{IN_FIRST}.1.expression", 'looked_up(alloc, old, ids)?'),
    (f"{IN_FIRST}.1.expression.left.expression.value", text("c")),
    (f"{IN_FIRST}.3.expression.left.expression.right.left", name("c")),
    (f"{IN_FIRST}.3.expression.left.expression.right.left.object.name", text("X")),
    (f"{IN_FIRST}.4.expression.left.expression.right.right.expression.value", text("c")),
    (IN_FIRST, "without_last(old)"),
    (IN_EXPORTED, "without_first(old)"),
    (IN_EXPORTED, "first_later(old)?"),
    ("body.1", 'inside(old, Field::Declaration)'),
    ("body.2", "declared(alloc, old, ids)?"),
    ("body.2.expression", 'inside(old, Field::Right)'),
    ("body.2.expression.left.name", text("A")),
    ("body.2.expression.right.arguments.0", NEW_OBJECT),
    ("body.3.expression.arguments.0.value", "Part::Number(1)"),
    ("body.3.expression.arguments.1", 'inside(old, Field::Argument)'),
    ("body.3.expression.arguments.2.value", text("m")),
    ("body.4.body", "without_first(old)"),
    ("body.5.declarations.0.init.properties.0.value.value", "Part::Number(1)"),
]

# The call of a namespace, and the statements in its function; in these the call of one that it exports.
CALL = "body.1.expression"
IN_CALL = f"{CALL}.callee.expression.body.statements"
INNER, NOT_EXPORTED = f"{IN_CALL}.13.expression", f"{IN_CALL}.15.expression"
INNER_OBJECT = f"{INNER}.arguments.0.right.expression.right"

# The same for namespaces, modules and the extensions in their names.
MODULE_BUGS = [
    ("body", "without(old, 0)"),
    ("body", "declared_at(alloc, old, 4, \"B\", ids)?"),
    ("body", "declared_at(alloc, old, 8, \"z\", ids)?"),
    ("body", "without(old, 6)"),
    ("body.0.kind", "Part::Word(Word::Var)"),
    (f"{CALL}.arguments.0", NEW_OBJECT),
    (f"{CALL}.arguments.0.left.name", text("B")),
    (f"{CALL}.callee.expression.params.items.0.pattern.name", text("A")),
    (f"{CALL}.callee.expression.params.items.0.pattern.name", text("_C")),
    (f"{CALL}.pure", "Part::Flag(true)"),
    (f"{IN_CALL}.0.declarations.0.init", "inside(old, Field::Right)"),
    (f"{IN_CALL}.0.declarations.1.init.left.property.name", text("a")),
    (f"{IN_CALL}.0.declarations.0.init.left.object.name", text("_B")),
    (f"{IN_CALL}.2.expression.expressions", "without_last(old)"),
    (f"{IN_CALL}.2.expression.expressions.0.right.name", text("g")),
    (IN_CALL, "without(old, 4)"),
    (f"{IN_CALL}.9.kind", "Part::Word(Word::Let)"),
    (IN_CALL, "without(old, 12)"),
    (INNER_OBJECT, NEW_OBJECT),
    (f"{INNER_OBJECT}.right.expression.left.property.name", text("O")),
    (f"{NOT_EXPORTED}.callee.expression.body.directives", "without_first(old)"),
    ("body.2", "inside(old, Field::Declaration)"),
    ("body.5.kind", "Part::Word(Word::Const)"),
    ("body.6.declarations.0.init.callee.name", text("f")),
    ("body.6.declarations.0.init.arguments.0.value", text("w")),
    ("body.7", "inside(old, Field::Declaration)"),
    ("body.8.source.value", text("./y.ts")),
    ("body.9.source.value", text("./x")),
    ("body.10.expression.source.quasis.0.raw", text("./i.mts")),
    ("body.10.expression.source.quasis.0.cooked", text("./i.mts")),
    ("body.12.expression", "inside(old, Field::Right)"),
    ("body.12.expression.left.property.name", text("export")),
    ("directives", "without_first(old)"),
]

# The elements of a class where fields move and empty ones go, the statements of its constructor, the expressions that became the
# key of its getter, and the elements of a class whose constructor is made, with its statements.
MEMBERS, MADE = "body.5.body.body", "body.6.body.body"
IN_CONSTRUCTOR, IN_MADE = f"{MEMBERS}.5.value.body.statements", f"{MADE}.0.value.body.statements"
KEYS = f"{MEMBERS}.6.key.expressions"

# Bugs where fields move: the hook of the pass, and places in what it has made.
MOVED_BUGS = [
    (CLASSES, "EnterClass"),
    (IN_CONSTRUCTOR, "swapped(old, 1)?"),
    (IN_CONSTRUCTOR, "swapped(old, 3)?"),
    (IN_CONSTRUCTOR, "swapped(old, 9)?"),
    (IN_CONSTRUCTOR, "without(old, 1)"),
    (IN_CONSTRUCTOR, "without(old, 2)"),
    (IN_CONSTRUCTOR, "without(old, 4)"),
    (IN_CONSTRUCTOR, "doubled(alloc, old, 3, ids)?"),
    (f"{IN_CONSTRUCTOR}.3.expression.left.property.name", text("kind")),
    (f"{IN_CONSTRUCTOR}.3.expression.left.object", name("log")),
    (f"{IN_CONSTRUCTOR}.4.expression.left.field.name", text("hidden")),
    (f"{IN_CONSTRUCTOR}.5.expression.left.expression.name", text("loose")),
    (f"{IN_CONSTRUCTOR}.6.expression.left.expression.name", text("loose")),
    (f"{IN_CONSTRUCTOR}.7.expression.left.expression.value", text("first")),
    (f"{IN_CONSTRUCTOR}.9.expression.left.expression.name", text("_key")),
    (KEYS, "without(old, 0)"),
    (KEYS, "without(old, 2)"),
    (KEYS, "without_last(old)"),
    (KEYS, "swapped(old, 0)?"),
    (KEYS, "doubled(alloc, old, 1, ids)?"),
    (f"{KEYS}.0.left.name", text("_key")),
    (f"{KEYS}.0", "inside(old, Field::Right)"),
    (MEMBERS, "without(old, 0)"),
    (MEMBERS, "without(old, 1)"),
    (MEMBERS, "without(old, 2)"),
    (MEMBERS, "swapped(old, 3)?"),
    (MEMBERS, "static_in_constructor(old)?"),
    (f"{MEMBERS}.2.value", name("log")),
    (f"{MEMBERS}.3.value", "Part::Nothing"),
    (IN_MADE, "without(old, 0)"),
    (IN_MADE, "without(old, 1)"),
    (IN_MADE, "swapped(old, 0)?"),
    (f"{IN_MADE}.0.expression.arguments", "without_first(old)"),
    (f"{MADE}.0.value.params.rest", "Part::Nothing"),
    (MADE, "without(old, 0)"),
    (MADE, "without(old, 1)"),
    ("body.0.declarations", "without(old, 2)"),
    ("body.0.declarations.1.id.name", text("_loose")),
    ("body.7.declaration.body.body.0.value.body.statements", "swapped(old, 0)?"),
]

# Where empty fields go.
DROPPED_BUGS = [(CLASSES, "ExitClass"), ("body.4.body.body", "without(old, 9)"), ("body.4.body.body", "without(old, 2)")]

# Where fields stay: an element of a class with two parameter properties, and a statement of its constructor.
FRONT, IN_FRONT = "body.3.body.body", "body.3.body.body.2.value.body.statements"
STAYING_BUGS = [
    (CLASSES, "EnterClass"),
    (CLASSES, "EnterMethodDefinition"),
    (FRONT, "without(old, 0)"),
    (FRONT, "swapped(old, 0)?"),
    (f"{FRONT}.1.value", name("log")),
    (f"{FRONT}.1.static", "Part::Flag(true)"),
    (IN_FRONT, "without(old, 1)"),
    (IN_FRONT, "swapped(old, 0)?"),
    (IN_FRONT, "swapped(old, 1)?"),
    (f"{IN_FRONT}.0.expression.right.name", text("size")),
    ("body.4.body.body", "swapped(old, 0)?"),
]

# The elements of a decorated class, the calls of its accessor and of its method, and its own call behind the assignments.
DECORATED = "body.2.declarations.0.init.body.body"
ACCESSOR_CALL, METHOD_CALL, CLASS_CALL = "body.3.expression", "body.4.expression", "body.5.expression.right.right"

# Where decorators are lowered: the hooks of the pass, and places in what it has made.
DECORATOR_BUGS = [
    (DECORATORS, "EnterClass"),
    (DECORATORS, "ExitMethodDefinition"),
    (DECORATORS, "ExitClass"),
    (DECORATORS, "ExitClassAtEnd"),
    (DECORATORS, "ExitStatement"),
    ("body", "without(old, 1)"),
    ("body", "without(old, 3)"),
    ("body", "without(old, 4)"),
    ("body", "without(old, 5)"),
    ("body", "without(old, 6)"),
    ("body", "swapped(old, 3)?"),
    ("body", "swapped(old, 4)?"),
    ("body", "swapped(old, 5)?"),
    ("body", "doubled(alloc, old, 4, ids)?"),
    ("body.2.kind", "Part::Word(Word::Const)"),
    (f"{ACCESSOR_CALL}.arguments.0.elements", "without_first(old)"),
    (f"{ACCESSOR_CALL}.arguments.1", "inside(old, Field::Object)"),
    (f"{ACCESSOR_CALL}.arguments.2.value", text("length")),
    (f"{ACCESSOR_CALL}.arguments.3", name("log")),
    (f"{ACCESSOR_CALL}.callee.property.name", text("decorateParam")),
    (f"{METHOD_CALL}.arguments.0.elements", "swapped(old, 0)?"),
    (f"{METHOD_CALL}.arguments.0.elements.1.arguments.0.value", "Part::Number(1)"),
    ("body.5.expression", "inside(old, Field::Right)"),
    ("body.5.expression.right", "inside(old, Field::Right)"),
    (f"{CLASS_CALL}.arguments.0.elements", "swapped(old, 0)?"),
    (f"{CLASS_CALL}.arguments.0.elements", "without_last(old)"),
    (f"{CLASS_CALL}.arguments.1.name", text("_Users")),
    ("body.6.specifiers.0.local.name", text("_Users")),
    (DECORATED, "without(old, 0)"),
    (DECORATED, "without(old, 3)"),
    (DECORATED, "without(old, 4)"),
    (DECORATED, "without(old, 5)"),
    (f"{DECORATED}.3.key.name", text("size")),
    (f"{DECORATED}.3.value", "Part::Nothing"),
    (f"{DECORATED}.4.static", "Part::Flag(true)"),
    (f"{DECORATED}.4.value.body.statements.0.argument.field.name", text("last")),
    (f"{DECORATED}.5.value.body.statements", "without(old, 0)"),
    (f"{DECORATED}.6.value.body.statements.1.expression.left.object.name", text("Users")),
    (f"{DECORATED}.7.value.body.statements.0.argument.arguments.0.callee.object.name", text("Users")),
]

# The types of a decorated class: of its accessor, of its method and of its constructor.
ACCESSOR_TYPES, METHOD_TYPES, CLASS_TYPES = (f"{call}.arguments.0.elements" for call in (ACCESSOR_CALL, METHOD_CALL, CLASS_CALL))

# Where these are told too: the hook for constructors, and places in what is made.
CLASS_METADATA_BUGS = [
    (METADATA, "EnterClass"),
    (ACCESSOR_TYPES, "without(old, 1)"),
    (ACCESSOR_TYPES, "without(old, 2)"),
    (ACCESSOR_TYPES, "swapped(old, 1)?"),
    (f"{ACCESSOR_TYPES}.1.arguments.1.name", text("Function")),
    (f"{ACCESSOR_TYPES}.2.arguments.1", name("Object")),
    (METHOD_TYPES, "swapped(old, 1)?"),
    (METHOD_TYPES, "swapped(old, 3)?"),
    (METHOD_TYPES, "without(old, 4)"),
    (f"{METHOD_TYPES}.4.arguments.1.name", text("Promise")),
    (CLASS_TYPES, "without_last(old)"),
    (CLASS_TYPES, "swapped(old, 1)?"),
    (f"{CLASS_TYPES}.2.arguments.0.value", text("design:type")),
    (f"{CLASS_TYPES}.2.arguments.1.elements", "without_first(old)"),
    (f"{CLASS_TYPES}.2.arguments.1.elements.0.name", text("Map")),
]

# The types of two fields, one of them a dotted name, of a method, and of a getter.
SHAPE, LENGTH = ("body.5.expression.arguments.0.elements", "body.6.expression.arguments.0.elements")
LOAD, BOX_KIND = ("body.8.expression.arguments.0.elements", "body.9.expression.arguments.0.elements")
NAMED, DOTTED = f"{SHAPE}.1.arguments.1", f"{LENGTH}.1.arguments.1"

# The hooks for methods and fields, and places in what is made for types of each sort.
METADATA_BUGS = [
    (METADATA, "EnterMethodDefinition"),
    (METADATA, "EnterPropertyDefinition"),
    ("body", "without(old, 1)"),
    ("body", "without(old, 3)"),
    (SHAPE, "without(old, 1)"),
    (f"{SHAPE}.1.callee.property.name", text("decorateParam")),
    (NAMED, "inside(old, Field::Alternate)"),
    (NAMED, "inside(old, Field::Consequent)"),
    (f"{NAMED}.alternate.name", text("noted")),
    (f"{NAMED}.consequent.name", text("Function")),
    (f"{NAMED}.test", "inside(old, Field::Right)"),
    (f"{NAMED}.test.left", "inside(old, Field::Argument)"),
    (f"{NAMED}.test.operator", text("!==")),
    (f"{NAMED}.test.right.value", text("object")),
    (f"{DOTTED}.test", "inside(old, Field::Right)"),
    (f"{DOTTED}.test", "inside(old, Field::Left)"),
    (f"{DOTTED}.test.operator", text("&&")),
    (f"{DOTTED}.alternate", "inside(old, Field::Object)"),
    (f"{DOTTED}.alternate.property.name", text("Width")),
    ("body.7.expression.arguments.0.elements.1.arguments.1.name", text("Size")),
    (LOAD, "without(old, 3)"),
    (f"{LOAD}.2.arguments.1.elements", "swapped(old, 0)?"),
    (f"{LOAD}.2.arguments.1.elements", "without_last(old)"),
    (f"{LOAD}.2.arguments.1.elements", "doubled(alloc, old, 0, ids)?"),
    (f"{LOAD}.2.arguments.1.elements.1.name", text("Number")),
    (f"{LOAD}.3.arguments.0.value", text("design:type")),
    (f"{LOAD}.3.arguments.1.name", text("Object")),
    (f"{BOX_KIND}.1.arguments.1.name", text("Function")),
    (BOX_KIND, "doubled(alloc, old, 2, ids)?"),
]

# What they are written with.
HELPERS = """
fn field<'a>(node: &'a mut Node, field: Field) -> &'a mut Part {
    match place_of(node.kind.rows(), field) { Some(place) => &mut node.parts[place], None => unreachable!() }
}
fn child<'a>(part: &'a mut Part, of: Field) -> &'a mut Part {
    match part { Part::Node(node) => field(node, of), _ => unreachable!() }
}
fn item<'a>(part: &'a mut Part, place: usize) -> &'a mut Part {
    match part { Part::List(items) => &mut items[place], _ => unreachable!() }
}
fn inside(part: Part, of: Field) -> Part { let mut part = part; child(&mut part, of).take() }
fn node_in(part: Part) -> Node { match part { Part::Node(node) => node, _ => unreachable!() } }
fn without_last(part: Part) -> Part {
    match part { Part::List(mut items) => { let _last = items.pop(); Part::List(items) } other => other }
}
fn without_first(part: Part) -> Part {
    match part { Part::List(mut items) => { let _first = items.remove(0); Part::List(items) } other => other }
}
fn without(part: Part, place: usize) -> Part {
    match part { Part::List(mut items) => { let _item = items.remove(place); Part::List(items) } other => other }
}
fn swapped(part: Part, place: usize) -> Result<Part, OutOfMemory> {
    match part {
        Part::List(mut items) => { let moved = items.remove(place); items.insert(place + 1, moved)?; Ok(Part::List(items)) }
        other => Ok(other),
    }
}
fn doubled(alloc: Global, part: Part, place: usize, ids: &mut NodeIds) -> Result<Part, OutOfMemory> {
    match part {
        Part::List(mut items) => {
            let copy = match &items[place] { Part::Node(node) => node.clone_node(alloc, ids)?, _ => unreachable!() };
            items.insert(place, Part::Node(copy))?;
            Ok(Part::List(items))
        }
        other => Ok(other),
    }
}
fn static_in_constructor(part: Part) -> Result<Part, OutOfMemory> {
    match part {
        Part::List(mut items) => {
            let mut block = items.remove(1);
            let moved = item(child(&mut block, Field::Body), 0).take();
            match child(child(child(&mut items[4], Field::Value), Field::Body), Field::Statements) {
                Part::List(statements) => statements.push(moved)?,
                _ => unreachable!(),
            }
            Ok(Part::List(items))
        }
        other => Ok(other),
    }
}
fn declared_at(alloc: Global, part: Part, place: usize, name: &str, ids: &mut NodeIds) -> Result<Part, OutOfMemory> {
    let declared = declaration(alloc, Word::Let, &Name::new(alloc, name)?, None, ids)?;
    match part {
        Part::List(mut items) => { items.insert(place, Part::Node(declared))?; Ok(Part::List(items)) }
        other => Ok(other),
    }
}
fn first_later(part: Part) -> Result<Part, OutOfMemory> {
    match part {
        Part::List(mut items) => { let first = items.remove(0); items.insert(1, first)?; Ok(Part::List(items)) }
        other => Ok(other),
    }
}
fn looked_up(alloc: Global, put: Part, ids: &mut NodeIds) -> Result<Part, OutOfMemory> {
    let object = reference(alloc, &Name::new(alloc, "A")?, ids)?;
    let target = computed(alloc, object, node_in(put), ids)?;
    let text = string_literal(alloc, &Name::new(alloc, "b")?, ids)?;
    Ok(Part::Node(assignment(alloc, target, text, ids)?))
}
fn declared(alloc: Global, put: Part, ids: &mut NodeIds) -> Result<Part, OutOfMemory> {
    let value = node_in(inside(inside(put, Field::Expression), Field::Right));
    Ok(Part::Node(declaration(alloc, Word::Let, &Name::new(alloc, "X")?, Some(value), ids)?))
}
"""
IMPORTS = """use oxt_ctx::nodes::{assignment, computed, declaration, empty_object, reference, string_literal};
use oxt_grammar::field::Field;
use oxt_grammar::word::Word;
use oxt_tree::fields::place_of;
use oxt_names::ids::NodeIds;
use oxt_names::name::Name;
use std::alloc::Global;
use crate::inline::inline_constant;"""
# The example, the flags and the bugs of each run.
RUNS = [
    ("forms", FLAGS, ERASER_BUGS),
    ("enums", FLAGS, [*LEFT_OUT_OF_ENUMS, *ENUM_BUGS]),
    ("namespaces", FLAGS, [*LEFT_OUT_OF_MODULES, *MODULE_BUGS]),
    ("fields", MOVED, MOVED_BUGS),
    ("fields", DROPPED, DROPPED_BUGS),
    ("fields", (), STAYING_BUGS),
    ("decorators", LEGACY, DECORATOR_BUGS),
    ("decorators", TYPED, CLASS_METADATA_BUGS),
    ("metadata", TYPED, METADATA_BUGS),
]
BUGS = dict(enumerate([bug for _, _, bugs in RUNS for bug in bugs], 1))
# Those of the passes but that which erases types: a hook that is left out, or a place and what comes there.
LATER_BUGS = {number: bug for number, bug in BUGS.items() if number > len(ERASER_BUGS)}
# The files of the passes.
PASSES = (ENUMS, NAMESPACES, MODULES, EXTENSIONS, CLASSES, DECORATORS, METADATA)
NUMBERED = "if hook == Hook::EnterProgram { self.bug = node.span.start; }"


def put(source, *changes):
    """The text with each of these in place of what stands there once."""
    for old, new in changes:
        assert source.count(old) == 1, old
        source = source.replace(old, new)
    return source


def at_begin(source, method, lines):
    """The lines at the begin of the method."""
    begin = re.search(rf"fn {method}\(.*?\{{\n", source, re.S).end()
    return f"{source[:begin]}        {lines}\n{source[begin:]}"


def planted_eraser(source):
    """The pass that erases types with its bugs in it, by number."""
    source = put(source, ("pub struct TypeScriptAnnotations;", "pub struct TypeScriptAnnotations { bug: u32 }"),
                 ("        TypeScriptAnnotations\n    }", "        TypeScriptAnnotations { bug: 0 }\n    }"),
                 ("use oxt_tree::tree::{Node, Part};", "use oxt_grammar::word::Word;\nuse oxt_tree::tree::{Node, Part};"))
    lines = {"at_node": NUMBERED, "at_statements": ""}
    for number, (hook, wrong) in enumerate(ERASER_BUGS, 1):
        entered = "Enter" + hook.title().replace("_", "")
        method = "at_statements" if hook == "statements" else "at_node"
        lines[method] += f" if self.bug == {number} && hook == Hook::{entered} {{ {wrong} return Ok(()); }}"
    return at_begin(at_begin(source, "at_node", lines["at_node"]), "at_statements", lines["at_statements"])


def place_of(path):
    """The place in the tree, as the program reaches it."""
    first, *steps = path.split(".")
    place = f"field(node, {variant(first)})"
    for step in steps:
        place = f"item({place}, {step})" if step.isdigit() else f"child({place}, {variant(step)})"
    return place


def variant(field):
    """What code calls the field of that name."""
    return f"Field::{field[:1].upper()}{field[1:]}"


def left_out(source, path):
    """The pass in that file, with those of its hooks left out that are bugs, by number."""
    lines = {"at_node": NUMBERED, "at_statements": ""}
    for number, bug in LATER_BUGS.items():
        if bug[0] == path:
            method = "at_statements" if bug[1].endswith("Statements") else "at_node"
            lines[method] += f" if self.bug == {number} && hook == Hook::{bug[1]} {{ return Ok(()); }}"
    return lines, source


def with_lines(lines, source):
    """The pass with the lines at the begin of its methods."""
    return at_begin(at_begin(source, "at_node", lines["at_node"]), "at_statements", lines["at_statements"])


def planted_enums(source):
    """The pass that lowers enums with its bugs in it, by number, and with those that change what all passes have made."""
    lines, source = left_out(put(source, ("pub optimize_enums: bool,\n}", "pub optimize_enums: bool,\n    bug: u32,\n}"),
                                 ("            optimize_enums,\n        }", "            optimize_enums,\n            bug: 0,\n        }"),
                                 ("use crate::inline::inline_constant;", IMPORTS)), ENUMS)
    functions = HELPERS
    for number, (path, wrong) in LATER_BUGS.items():
        if path in PASSES:
            continue
        functions += f"""fn bug_{number}(node: &mut Node, ids: &mut NodeIds) -> Result<(), OutOfMemory> {{
    let alloc = *node.parts.allocator();
    let place = {place_of(path)};
    let old = place.take();
    *place = {wrong};
    Ok(())
}}
"""
        lines["at_node"] += f" if self.bug == {number} && hook == Hook::ExitProgram {{ return bug_{number}(node, &mut ctx.ids); }}"
    return with_lines(lines, source) + functions


def planted_namespaces(source):
    """The pass that lowers namespaces with its bugs in it."""
    return with_lines(*left_out(put(source, ("pub struct TypeScriptNamespace;", "pub struct TypeScriptNamespace { bug: u32 }"),
                                    ("        TypeScriptNamespace\n    }", "        TypeScriptNamespace { bug: 0 }\n    }")), NAMESPACES))


def planted_modules(source):
    """The pass that lowers `import =` and `export =` with its bugs in it."""
    return with_lines(*left_out(put(source, ("pub module: Module,\n}", "pub module: Module,\n    bug: u32,\n}"),
                                    ("            module,\n        }", "            module,\n            bug: 0,\n        }")), MODULES))


def planted_extensions(source):
    """The pass that rewrites the names of modules with its bugs in it."""
    return with_lines(*left_out(put(source, ("pub mode: RewriteExtensionsMode,\n}", "pub mode: RewriteExtensionsMode,\n    bug: u32,\n}"),
                                    ("TypeScriptRewriteExtensions { mode }", "TypeScriptRewriteExtensions { mode, bug: 0 }")), EXTENSIONS))


def planted_classes(source):
    """The pass over classes with its bugs in it."""
    return with_lines(*left_out(put(source, ("pub drops_empty: bool,\n}", "pub drops_empty: bool,\n    bug: u32,\n}"),
                                    ("remove_class_fields_without_initializer,\n        }\n", "remove_class_fields_without_initializer,\n            bug: 0,\n        }\n")), CLASSES))


def planted_decorators(source):
    """The pass that lowers decorators with its bugs in it."""
    return with_lines(*left_out(put(source, ("decorated: Option<DecoratedClass>,\n}", "decorated: Option<DecoratedClass>,\n    bug: u32,\n}"),
                                    ("            decorated: None,\n", "            decorated: None,\n            bug: 0,\n")), DECORATORS))


def planted_metadata(source):
    """The pass that reads the types of what is decorated with its bugs in it."""
    return with_lines(*left_out(put(source, ("    fields: SparseStack<Node>,\n}", "    fields: SparseStack<Node>,\n    bug: u32,\n}"),
                                    ("            fields: SparseStack::new(alloc),\n", "            fields: SparseStack::new(alloc),\n            bug: 0,\n"),
                                    ("_hook: Hook,", "hook: Hook,")), METADATA))


def with_open_pattern(source):
    """The composed pass, whose pattern over the pass of modules leaves room for the number of its bug."""
    return put(source, ("            module,\n        } = self.modules;", "            module,\n            ..\n        } = self.modules;"))


PLANTED = {
    "crates/oxt_erase/src/pass.rt": planted_eraser,
    ENUMS: planted_enums,
    NAMESPACES: planted_namespaces,
    MODULES: planted_modules,
    EXTENSIONS: planted_extensions,
    CLASSES: planted_classes,
    DECORATORS: planted_decorators,
    METADATA: planted_metadata,
    COMPOSED: with_open_pattern,
}


def write_cases(folder, flags):
    """Writes the trees of the runs with these flags: one for each bug, and one for none."""
    number = 0
    for example, run_flags, bugs in RUNS:
        tree = json.loads((TOP / "examples" / f"{example}.json").read_text())
        for number in range(number + 1, number + 1 + len(bugs)):
            if run_flags == flags:
                (folder / f"{number:03}").write_text(json.dumps({**tree, "start": number}))
        if run_flags == flags:
            (folder / f"000{example}").write_text(json.dumps(tree))


def answers(copy, flags):
    """What the program with the bugs answers under the flags: its line where it is not certified, the case, and the status."""
    with tempfile.TemporaryDirectory() as cases:
        write_cases(Path(cases), flags)
        call = ["rt", "try", "--cases", cases, "--", *flags]
        done = subprocess.run(call, cwd=copy / "crates/oxt", capture_output=True, text=True)
        found = re.findall(r"((?:uncertified .*\n)?)case=(\w+) run=ended status=(\d+) ", done.stderr)
        return found or sys.exit(done.stdout[-2000:] + done.stderr[-2000:])


def all_answers():
    """The same under the flags of each run."""
    with tempfile.TemporaryDirectory() as folder:
        copy = Path(folder, "copy")
        shutil.copytree(TOP, copy, ignore=shutil.ignore_patterns("out", ".git", "wip"))
        for path, plant in PLANTED.items():
            (copy / path).write_text(plant((copy / path).read_text()))
        return [answer for flags in dict.fromkeys(flags for _, flags, _ in RUNS) for answer in answers(copy, flags)]


def main():
    told = all_answers()
    caught = sum(bool(line) and status == "2" for line, case, status in told if not case.startswith("000"))
    passes = all(status == "0" and not line for line, case, status in told if case.startswith("000"))
    for line, case, status in told:
        print(f"bug {case}: status {status} {line.strip()}")
    print(f"{caught} of {len(BUGS)} bugs are answered uncertified; without one the trees {'are lowered' if passes else 'are NOT lowered'}")
    sys.exit(0 if passes and caught == len(BUGS) else 1)


if __name__ == "__main__":
    main()
