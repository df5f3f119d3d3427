// A cache that forgets what was used longest ago.
type Options<K, V> = {
  readonly max: number;
  onEvict?(this: void, key: K, value: V): void;
};

const DEFAULTS = { max: 2 } as const satisfies Options<never, never>;

export interface Cache<K, V> {
  get(key: K): V | undefined;
  set(key: K, value: V): this;
}

export class LruCache<K, V> implements Cache<K, V> {
  static readonly defaults: Options<unknown, unknown> = DEFAULTS;
  private readonly entries = new Map<K, V>();
  private readonly options: Options<K, V>;
  public hits = 0;
  public misses: number = 0;
  protected declare brand: symbol;

  constructor(options?: Partial<Options<K, V>>) {
    this.options = { ...(LruCache.defaults as Options<K, V>), ...options! };
  }

  get(key: K): V | undefined {
    if (!this.entries.has(key)) {
      this.misses! += 1;
      return;
    }
    const value = this.entries.get(key)!;
    this.entries.delete(key);
    this.entries.set(key, value);
    (<number>this.hits)++;
    return value;
  }

  set(key: K, value: V): this {
    this.entries.delete(key);
    this.entries.set(key, value);
    if (this.entries.size > this.options.max) this.evict();
    return this;
  }

  private evict(): void {
    const [key, value] = (this.entries.entries().next() as IteratorYieldResult<[K, V]>).value!;
    this.entries.delete(key!);
    this.options?.onEvict?.(key as K, value!);
  }

  get ratio(): number {
    return this.hits / (this.hits + this.misses || (1 as number));
  }

  set ratio(value: number) {
    [this.hits as number, (this.misses)!] = [value as number, 0];
  }

  *keys(): IterableIterator<K> {
    yield* this.entries.keys() as Iterable<K>;
  }
}

/** Keeps what a function has answered. */
export function memoize<A extends readonly unknown[], R>(f: (...args: A) => R, max?: number): (...args: A) => R {
  const cache = new LruCache<string, R>({ max: max ?? 10 });
  return function (this: unknown, ...args: A): R {
    const key = JSON.stringify(args) as string;
    const known = cache.get(key);
    if (known !== undefined) return known as R;
    const value = Reflect.apply(f, this, args) as R;
    cache.set(key, value);
    return value!;
  };
}

const evicted: string[] = [];
const cache = new LruCache<string, number>({ onEvict: (key, value) => void evicted.push(`${key}=${value}`) });
cache.set("a", 1).set("b", 2);
cache.get("a")!.toFixed();
cache.set("c", 3);
console.log([...cache.keys()], evicted, cache.get("b"), cache.hits, cache.misses, cache.ratio);
cache.ratio = 7;
console.log(cache.hits, cache.misses, cache.ratio, Object.keys(cache));

let calls = 0;
const power = memoize<[number, number], number>((base: number, exponent: number): number => (calls++, base ** exponent), 3);
console.log(power(2, 10), power(2, 10), power(3, 3), calls);
