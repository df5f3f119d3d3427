#!/usr/bin/env python3
"""Writes trees of TypeScript programs of given sizes: make_trees.py FOLDER [FORM-]BYTES..

The trees are the same at each run. They have the forms that most programs have: types, wrappers, functions,
classes, blocks and loops, with spans on all nodes. One of FORM has also enums, namespaces, fields or decorators
in each stretch.
"""
import itertools
import json
import sys


def node(kind, /, **fields):
    return {"type": kind, **fields}


def name(text):
    return node("IdentifierReference", name=text)


def binding(text):
    return node("BindingIdentifier", name=text)


def key(text):
    return node("IdentifierName", name=text)


def number(value):
    return node("NumericLiteral", value=value, raw=str(value))


def annotation(type_name):
    if type_name in ("Number", "String", "Any", "Void"):
        held = node(f"TS{type_name}Keyword")
    else:
        held = node("TSTypeReference", typeName=name(type_name))
    return node("TSTypeAnnotation", typeAnnotation=held)


def as_type(expression, type_name):
    return node("TSAsExpression", expression=expression, typeAnnotation=annotation(type_name)["typeAnnotation"])


def member(object_, property_):
    return node("StaticMemberExpression", object=object_, property=key(property_))


def call(callee, *arguments):
    return node("CallExpression", callee=callee, arguments=list(arguments))


def binary(left, operator, right):
    return node("BinaryExpression", left=left, operator=operator, right=right)


def expression_statement(expression):
    return node("ExpressionStatement", expression=expression)


def variable(kind, text, type_name, value):
    declarator = node("VariableDeclarator", id=binding(text), typeAnnotation=annotation(type_name), init=value)
    return node("VariableDeclaration", kind=kind, declarations=[declarator])


def block(*statements):
    return node("BlockStatement", body=list(statements))


def parameters(*typed):
    return node("FormalParameters", items=[
        node("FormalParameter", pattern=binding(text), typeAnnotation=annotation(type_name)) for text, type_name in typed])


def function_body(*statements):
    return node("FunctionBody", statements=list(statements))


def return_(expression):
    return node("ReturnStatement", argument=expression)


def sum_function(i):
    """function sum0(items: Items0, limit: number): number { let total: number = 0; for (..) { if (..) { .. } } return total; }"""
    add = expression_statement(node("AssignmentExpression", operator="+=", left=name("total"),
                                    right=as_type(member(name("item"), "price"), "Number")))
    too_many = binary(name("total"), ">", node("TSNonNullExpression", expression=name("limit")))
    loop = node("ForOfStatement", left=variable("const", "item", "Any", None), right=name("items"), body=block(
        node("IfStatement", test=too_many, consequent=block(node("BreakStatement")), alternate=block(add))))
    return node("FunctionDeclaration", id=binding(f"sum{i}"), params=parameters(("items", f"Items{i}"), ("limit", "Number")),
                returnType=annotation("Number"),
                body=function_body(variable("let", "total", "Number", number(0)), loop, return_(name("total"))))


def store_class(i):
    """class Store0<T> extends Base<T> implements Items0 { count: number = 0; add(item: any): void { .. } }"""
    this_count = member(node("ThisExpression"), "count")
    grow = expression_statement(node("UpdateExpression", operator="++", argument=this_count))
    put = expression_statement(call(member(node("ParenthesizedExpression", expression=as_type(name("item"), "Any")), "put"), this_count))
    add = node("FunctionExpression", params=parameters(("item", "Any")), returnType=annotation("Void"), body=function_body(grow, put))
    parameter = node("TSTypeParameter", name=binding("T"))
    return node("ClassDeclaration", id=binding(f"Store{i}"),
                typeParameters=node("TSTypeParameterDeclaration", params=[parameter]),
                superClass=name("Base"), superTypeArguments=node("TSTypeParameterInstantiation"),
                implements=[node("TSClassImplements")],
                body=node("ClassBody", body=[
                    node("PropertyDefinition", key=key("count"), typeAnnotation=annotation("Number"), value=number(0)),
                    node("MethodDefinition", key=key("add"), value=add)]))


def handler(i):
    """const onChange0: Handler = (event: any) => { try { .. } catch (error: any) { .. } };"""
    log = expression_statement(call(member(name("console"), "log"), node("StringLiteral", value=f"change {i}"), name("error")))
    caught = node("CatchClause", param=node("CatchParameter", pattern=binding("error"), typeAnnotation=annotation("Any")), body=block(log))
    send = expression_statement(call(name(f"sum{i}"), member(name("event"), "items"), number(i)))
    arrow = node("ArrowFunctionExpression", params=parameters(("event", "Any")), body=function_body(
        node("TryStatement", block=block(send), handler=caught)))
    return variable("const", f"onChange{i}", "Handler", arrow)


def statements(i):
    """A stretch of a program: two types, a function, a class and an arrow."""
    return [node("TSInterfaceDeclaration", id=binding(f"Items{i}")), node("TSTypeAliasDeclaration", id=binding(f"Price{i}")),
            sum_function(i), store_class(i), handler(i)]


def color_enum(i):
    """enum Color0 { Red = 1, Green, Both = Red | Green } console.log(Color0.Red);"""
    members = [node("TSEnumMember", id=key("Red"), initializer=number(1)), node("TSEnumMember", id=key("Green")),
               node("TSEnumMember", id=key("Both"), initializer=binary(name("Red"), "|", name("Green")))]
    use = call(member(name("console"), "log"), member(name(f"Color{i}"), "Red"))
    return [node("TSEnumDeclaration", id=binding(f"Color{i}"), body=node("TSEnumBody", members=members)), expression_statement(use)]


def space(i):
    """namespace Space0 { export const limit: number = 0; use(limit); function sum0(..) { .. } }"""
    limit = node("ExportDeclaration", declaration=variable("const", "limit", "Number", number(i)))
    use = expression_statement(call(name("use"), name("limit")))
    body = node("TSModuleBlock", body=[limit, use, sum_function(i)])
    return [node("TSNamespaceDeclaration", kind="namespace", id=binding(f"Space{i}"), body=body)]


def field_class(i):
    """The class of a stretch with three fields more, the last of which is static."""
    store = store_class(i)
    store["body"]["body"] += [node("PropertyDefinition", key=key(text), static=text == "last", value=binary(number(i), "+", number(1)))
                              for text in ("first", "second", "last")]
    return [store]


def decorated_class(i):
    """The same, where the class and all its elements but the static one are decorated."""
    store, = field_class(i)
    for decorated in [store, *store["body"]["body"][:-1]]:
        decorated["decorators"] = [node("Decorator", expression=call(name("noted")))]
    return [store]


FORMS = {"": lambda i: [], "enums": color_enum, "namespaces": space, "fields": field_class, "decorators": decorated_class}


def place(value, at):
    """Gives each node a span that holds those of the nodes in it, and answers the first offset behind."""
    if isinstance(value, list):
        for item in value:
            at = place(item, at)
    elif isinstance(value, dict):
        value["start"] = at
        at += 1
        for field in [f for f in value if f not in ("start", "type")]:
            at = place(value[field], at)
        value["end"] = at
    return at


def compact(value):
    return json.dumps(value, separators=(",", ":"))


def program(form, size):
    """The text of a program of about so many bytes, with that form in each stretch."""
    stretches = (statements(i) + FORMS[form](i) for i in itertools.count())
    pieces, total, at = [], 0, 0
    for statement in itertools.chain.from_iterable(stretches):
        at = place(statement, at)
        pieces.append(compact(statement))
        total += len(pieces[-1]) + 1
        if total >= size:
            break
    return '{"type":"Program","end":%d,"body":[%s]}' % (at, ",".join(pieces))


def main():
    folder, *trees = sys.argv[1:]
    for tree in trees:
        form, _, size = tree.rpartition("-")
        with open(f"{folder}/{tree}.json", "w") as file:
            file.write(program(form, int(size)))


main()
