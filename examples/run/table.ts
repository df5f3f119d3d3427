// A table of text: columns by key, each with a width, an alignment and a form.
type Alignment = "left" | "right";

export interface Column<Row, Key extends keyof Row = keyof Row> {
  key: Key;
  title?: string;
  align?: Alignment;
  show?: (value: Row[Key], row: Row) => string;
}

export const column = <Row,>(key: keyof Row, more: Omit<Column<Row>, "key"> = {}): Column<Row> => ({ key, ...more });

const pad = (text: string, width: number, align: Alignment | undefined): string =>
  align === "right" ? text.padStart(width) : text.padEnd(width);

function rule(this: { mark: string } | void, widths: readonly number[]): string {
  return widths.map((width) => ((this as { mark: string } | undefined)?.mark ?? "-").repeat(width)).join("-+-");
}

export function table<Row extends object>(rows: readonly Row[], columns: Column<Row>[]): string {
  const cells = rows.map((row) => columns.map(({ key, show = String as (value: Row[keyof Row], row: Row) => string }) => show(row[key]!, row)));
  const titles = columns.map(({ title, key }: Column<Row>) => title ?? (key as string));
  const widths: number[] = [];
  for (const line of [titles, ...cells]) line.forEach((cell: string, at: number) => ((widths[at] as number) = Math.max(widths[at]! | 0, cell.length)));
  const shown = (line: string[]): string => line.map((cell, at) => pad(cell, widths[at]!, columns[at]?.align)).join(" | ").trimEnd();
  return [shown(titles), rule.call({ mark: "=" } as any, widths), ...cells.map(shown)].join("\n");
}

type Fruit = { name: string; price: number; stock?: number | null };
const fruits: Fruit[] = [
  { name: "apple", price: 1.5, stock: 12 },
  { name: "dragon fruit", price: 12, stock: null },
  { name: "fig", price: 0.25 },
];
const money = (value: unknown): string => (value as number).toFixed(2)!;
console.log(table<Fruit>(fruits, [
  column<Fruit>("name"),
  column<Fruit>("price", { align: "right", show: money }),
  { key: "stock", title: "in stock", align: "right" as const, show: (value) => (value == null ? "?" : `${value!}`) },
]));

let widest: string | undefined, count = 0 as number;
({ length: count as number, 0: (widest as string | undefined)! } = fruits.map((it) => it.name).sort((a, b) => b.length - a.length));
console.log(count!, widest!.toUpperCase());
for ((widest as any) of ["done"] as string[]) console.log(widest as string | undefined);
for (var letter in { a: 1, b: 2 } as Record<string, number>) console.log(letter as string);
