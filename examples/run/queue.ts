// A queue by priority: a heap in an array, with overloads, a `declare` field, wrappers as targets and a type guard.
export type Compare<T> = (a: T, b: T) => number;

export interface Sized {
  readonly size: number;
}

export const byNumber: Compare<number> = (a, b) => a - b;

interface Entry<T> {
  value: T;
  order: number;
}

export class PriorityQueue<T> implements Sized, Iterable<T> {
  declare readonly kind: "heap";
  private readonly entries: Entry<T>[] = [];
  protected pushed: number = 0;
  onEmpty?: (this: PriorityQueue<T>) => void;
  last!: T;

  constructor(items: Iterable<T>, compare: Compare<T>);
  constructor(items?: Iterable<T>);
  constructor(items: Iterable<T> = [], compare: Compare<T> = byNumber as unknown as Compare<T>) {
    this.compare = compare;
    for (const item of items as T[]) this.push(item);
  }

  private compare: Compare<T>;

  get size(): number {
    return this.entries.length;
  }

  push(value: T): this;
  push(value: T, ...more: T[]): this;
  push(...values: T[]): this {
    for (const value of values) {
      this.entries.push({ value, order: this.pushed++ } as Entry<T>);
      this.rise(this.entries.length - 1);
    }
    return this;
  }

  pop(): T | undefined {
    if (!this.entries.length) {
      this.onEmpty?.();
      return undefined as T | undefined;
    }
    [this.entries[0]!, this.entries[this.size - 1]!] = [this.entries[this.size - 1]!, this.entries[0]!];
    const { value }: Entry<T> = this.entries.pop()!;
    this.sink(0);
    (this.last as T) = value;
    return value;
  }

  *[Symbol.iterator](): Generator<T, void, undefined> {
    while (this.size > 0) yield this.pop()!;
  }

  private before(a: number, b: number): boolean {
    const first = this.entries[a]!, second = <Entry<T>>this.entries[b];
    const sign = this.compare(first.value, second.value);
    return sign < 0 || (sign === 0 && first.order < second.order);
  }

  private rise(at: number): void {
    let parent: number;
    while (at > 0 && this.before(at, (parent = (at - 1) >> 1))) {
      this.swap(at, parent);
      (at as number) = parent;
    }
  }

  private sink(at: number): void {
    for (let child: number; (child = 2 * at + 1) < this.size; at = child) {
      if (child + 1 < this.size && this.before(child + 1, child)) child!++;
      if (!this.before(child, at)) return;
      this.swap(at, child);
    }
  }

  private swap(a: number, b: number): void {
    const kept = this.entries[a];
    this.entries[a] = this.entries[b]!;
    this.entries[b]! = kept!;
  }
}

export function isSized(value: unknown): value is Sized {
  return typeof (value as Partial<Sized> | null)?.size === "number";
}

const queue = new PriorityQueue<number>([5, 1, 4]);
queue.onEmpty = function (this: PriorityQueue<number>): void {
  console.log(`empty after ${this.last}`);
};
queue.push(3).push(2, 9, 0);
console.log([...queue], queue.pop(), isSized(queue), isSized(null), "kind" in queue, "last" in queue, "onEmpty" in queue);

const words = new PriorityQueue<string>(["pear", "fig", "apple", "kiwi"], (a: string, b: string): number => a.length - b.length);
console.log([...words].join(" "));
