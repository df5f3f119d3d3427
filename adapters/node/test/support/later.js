/**
 * A parser that tells its tree as later versions of the `typescript` package do, made of the one that is installed. So
 * the forms that it does not know can be tried. Sources spell them by marks:
 *
 * | Mark | Form |
 * |---|---|
 * | `e as SATISFIES<T>` | `e satisfies T` |
 * | `readonly accessor_x` as a field | `accessor accessor_x` |
 * | `const using_x = e` | `using using_x = e` |
 * | `const await_using_x = e` | `await using await_using_x = e` |
 * | `import * as defer_x from "m"` | `import defer * as defer_x from "m"` |
 *
 * `assert` behind imports is told as `with` is, and names of JSX with a colon as nodes of their own.
 */
export function laterParser(ts) {
  const kinds = { SatisfiesExpression: 9001, AccessorKeyword: 9002, JsxNamespacedName: 9003, DeferKeyword: 9004 };
  const later = { ...ts, SyntaxKind: { ...ts.SyntaxKind, ...kinds }, NodeFlags: { ...ts.NodeFlags, Using: 4, AwaitUsing: 6 } };
  const { SyntaxKind } = later;

  const changes = [
    function satisfies(node) {
      if (node.kind !== SyntaxKind.AsExpression || node.type.typeName?.text !== "SATISFIES") return;
      node.kind = SyntaxKind.SatisfiesExpression;
      node.type = node.type.typeArguments[0];
    },
    function accessor(node) {
      if (node.kind !== SyntaxKind.PropertyDeclaration || !node.name.text?.startsWith("accessor_")) return;
      node.modifiers.find(({ kind }) => kind === SyntaxKind.ReadonlyKeyword).kind = SyntaxKind.AccessorKeyword;
    },
    function using(node) {
      const name = node.kind === SyntaxKind.VariableDeclarationList ? node.declarations[0].name.text : undefined;
      if (name?.startsWith("using_")) node.flags = (node.flags & ~later.NodeFlags.Const) | later.NodeFlags.Using;
      if (name?.startsWith("await_using_")) node.flags |= later.NodeFlags.AwaitUsing;
    },
    function attributes(node) {
      if (!node.assertClause) return;
      node.attributes = node.assertClause;
      delete node.assertClause;
    },
    function phase(node) {
      if (node.kind !== SyntaxKind.ImportClause) return;
      if (node.namedBindings?.name?.text.startsWith("defer_")) node.phaseModifier = SyntaxKind.DeferKeyword;
    },
    function namespacedName(node) {
      for (const part of ["name", "tagName"]) {
        const [namespace, name] = node[part]?.text?.includes(":") ? node[part].text.split(":") : [];
        if (name) node[part] = Object.assign(node[part], { kind: SyntaxKind.JsxNamespacedName, namespace: { text: namespace }, name: { text: name } });
      }
    },
  ];

  const change = (node) => {
    for (const each of changes) each(node);
    ts.forEachChild(node, change);
  };
  later.createSourceFile = (...words) => {
    const file = ts.createSourceFile(...words);
    change(file);
    return file;
  };
  return later;
}
