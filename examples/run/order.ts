// An order of tasks in which each comes after those that it needs; ties go by weight.
import type { Compare } from "./queue.mjs";
import { PriorityQueue, type Sized, isSized } from "./queue.mjs";

export type Graph<Name extends string = string> = { readonly [N in Name]?: readonly Name[] };

export interface Task {
  name: string;
  weight?: number;
}

export class CycleError extends Error {
  override readonly name: string = "CycleError";
  declare cause: unknown;
  public readonly names: readonly string[];

  constructor(names: readonly string[]) {
    super(`cycle among ${names.join(", ")}`);
    this.names = names;
  }
}

type Counts = Map<string, number>;

function needsOf(graph: Graph, name: string): readonly string[] {
  return (graph as Record<string, readonly string[] | undefined>)[name] ?? [];
}

function countsOf(graph: Graph): Counts {
  const counts: Counts = new Map<string, number>();
  for (const name of Object.keys(graph) as (keyof typeof graph)[]) {
    counts.set(name as string, needsOf(graph, name as string).length);
    for (const need of needsOf(graph, name as string)) if (!counts.has(need)) counts.set(need, needsOf(graph, need)!.length);
  }
  return counts;
}

export function order(graph: Graph): string[];
export function order(graph: Graph, weights: Record<string, number>): string[];
export function order(graph: Graph, weights: Record<string, number> = {}): string[] {
  const compare: Compare<Task> = (a, b) => b.weight! - a.weight! || (a.name < b.name ? -1 : 1);
  const ready = new PriorityQueue<Task>([], compare);
  const counts = countsOf(graph);
  const task = (name: string): Task => ({ name, weight: weights[name] ?? 0 });
  for (const [name, count] of counts as Iterable<[string, number]>) if (count === 0) ready.push(task(name));
  const done: string[] = [];
  for (let next: Task | undefined; (next = ready.pop()); ) {
    done.push(next.name);
    for (const [name, count] of counts) {
      const left = count - needsOf(graph, name).filter((need: string): boolean => need === next!.name).length;
      counts.set(name, left);
      if (count > 0 && left === 0) ready.push(task(name));
    }
  }
  if (done.length < counts.size) throw new CycleError([...counts.keys()].filter((name) => !done.includes(name)).sort());
  return done;
}

const graph: Graph = { app: ["ui", "store"], ui: ["dom"], store: ["log", "dom"], tests: ["app"] };
console.log(order(graph).join(" < "));
console.log(order(graph, { log: 2, ui: -1 }).join(" < "));
try {
  order({ a: ["b"], b: ["c"], c: ["a"], d: [] });
} catch (error: unknown) {
  if (!(error instanceof CycleError)) throw error as Error;
  console.log(error.name, error.message, "cause" in error, (error as CycleError).names!.length);
}
const sized: Sized = new Set<string>(["x"]);
console.log(isSized(sized), sized.size);
