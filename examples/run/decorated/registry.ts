// Classes that decorators replace or note: what their own bodies mean by their names, exports, and parameters.

const lines: string[] = [];
const note = (line: string): void => { lines.push(line); };

type Constructor = new (...values: any[]) => any;

const register = (name: string) => {
  note(`register(${name})`);
  return (target: Constructor): void => { note(`${name} is ${target.name}`); };
};

const counted = (target: Constructor): any => {
  const made = class extends target {
    static made = 0;
    constructor(...values: any[]) { super(...values); made.made += 1; }
  };
  return made;
};

const injected = (token: string) => (target: object, key: unknown, index: number): void => {
  note(`${token} at ${index} of ${typeof target} ${String(key)}`);
};

@register("store")
export class Store<T> {
  private readonly items = new Map<string, T>();
  put(key: string, item: T): this { this.items.set(key, item); return this; }
  get(key: string): T | undefined { return this.items.get(key); }
  static of<T>(): Store<T> { return new Store<T>(); }
}

@counted
export class Service {
  static current: Service | undefined = undefined;
  readonly names: string[];
  constructor(@injected("store") private store: Store<string>, ...names: string[]) {
    this.names = names;
  }
  find(@injected("key") key: string, fallback?: string): string { return this.store.get(key) ?? fallback ?? "none"; }
  copy(): Service { return new Service(this.store, ...this.names); }
  isOwn(other: unknown): boolean { return other instanceof Service; }
}

@register("outer")
export default class Outer {
  inner(): string {
    @register("inner")
    class Inner { readonly outer = Outer; }
    return new Inner().outer.name;
  }
}

const store = Store.of<string>().put("a", "first");
const service = new Service(store, "x", "y");
const copy = service.copy();
console.log(service.find("a"), service.find("b"), service.find("b", "other"), copy.names.join());
console.log((Service as any).made, service.isOwn(copy), copy instanceof Service, Service.current);
console.log(new Outer().inner());
for (const line of lines) console.log(line);
