// Puts the other modules together: default, named, namespace and type imports, and each form of a second-hand export.
import Version, { compare as compareVersions, type Part } from "./semver.mjs";
import * as calculator from "./calculator.mjs";
import type * as queues from "./queue.mjs";
import { table, type Column, column } from "./table.mjs";
import { order, Graph, CycleError as Cycle } from "./order.mjs";
import { type Cache as AnyCache, LruCache } from "./cache.mjs";
import "./machine.mjs";

export * from "./table.mjs";
export * as machines from "./machine.mjs";
export { default as Emitter, type Listener, type Events as AllEvents } from "./emitter.mjs";
export type { Token } from "./calculator.mjs";
export { Version, Cycle, type Part, Release };
export type Versions = Record<string, Version>;
export default interface Summary {
  readonly lines: number;
}

interface Release {
  name: string;
  version: string;
  needs?: readonly string[];
}

abstract class Report<Row extends object> {
  protected abstract rows(): Iterable<Row>;
  protected abstract columns: Column<Row>[];
  declare static shared: AnyCache<string, string>;

  render(title?: string): string;
  render(title: string = this.constructor.name): string {
    return `${title}\n${table([...this.rows()] as Row[], this.columns)}`;
  }
}

const releases = {
  core: { name: "core", version: "2.0.1" },
  cli: { name: "cli", version: "1.10.0", needs: ["core", "text"] },
  text: { name: "text", version: "1.9.0-beta.2", needs: ["core"] },
} as const;

class Releases extends Report<Release> {
  columns: Column<Release>[] = [column<Release>("name"), column<Release>("version", { align: "right" })];

  protected override *rows(): Generator<Release> {
    const graph: Graph = Object.fromEntries(Object.values<Release>(releases).map((it) => [it.name, it.needs ?? []]));
    for (const name of order(graph)) yield (releases as Record<string, Release>)[name]!;
  }
}

console.log(new Releases().render("releases"));
console.log(Object.values(releases).map((it: Release) => it.version).sort(compareVersions).map((text) => new Version(text).bump("patch") + ""));
const cache: AnyCache<string, number> = new LruCache<string, number>();
const value = (text: string): number => cache.get(text) ?? (cache.set(text, calculator.parse(text).value()), cache.get(text)!);
console.log(value("6 * 7"), value("6 * 7"), (cache as LruCache<string, number>).hits);
const queue: queues.PriorityQueue<number> | null = null;
console.log(queue, typeof Cycle, "shared" in Report);
