// Events by name, with the types of what each carries.
export type Listener<T> = (event: T) => void;
export type Events = { [name: string]: unknown };
type ListenersOf<E extends Events> = { [K in keyof E]?: Listener<E[K]>[] };

export abstract class Source<E extends Events> {
  abstract readonly label: string;
  protected abstract deliver<K extends keyof E>(name: K, event: E[K]): number;
  private declare secret: symbol;

  emit<K extends keyof E & string>(name: K, event: E[K]): number {
    const count = this.deliver(name, event);
    if (count === 0) console.log(`${this.label}: nobody hears ${name}`);
    return count;
  }

  describe?(): string;
}

export default class Emitter<E extends Events = Events> extends Source<E> {
  static created: number = 0;
  static #names = new Set<string>();
  static {
    type Named = { label: string };
    const first = { label: "none" } as Named;
    Emitter.#names.add(first.label!);
  }

  #listeners: ListenersOf<E> = Object.create(null) as ListenersOf<E>;
  readonly label: string;
  [index: number]: never;

  constructor(label = "emitter") {
    super();
    this.label = label;
    (Emitter.created as number)++;
    Emitter.#names.add(label);
  }

  static get names(): readonly string[] {
    return Array.from<string>(Emitter.#names);
  }

  on<K extends keyof E>(name: K, listener: Listener<E[K]>): () => void {
    ((this.#listeners[name] as Listener<E[K]>[] | undefined) ??= []).push(listener);
    return (): void => void this.off(name, listener);
  }

  once<K extends keyof E>(name: K, listener: Listener<E[K]>): void {
    const stop = this.on(name, (event) => {
      stop();
      listener(event);
    });
  }

  off<K extends keyof E>(name: K, listener: Listener<E[K]>): boolean {
    const all = this.#listeners[name]!;
    const at = all?.indexOf(listener) ?? -1;
    if (at >= 0) all!.splice(at, 1);
    return at >= 0;
  }

  protected override deliver<K extends keyof E>(name: K, event: E[K]): number {
    const all = [...((this.#listeners[name] ?? []) as Listener<E[K]>[])];
    for (const listener of all) listener(event);
    return all.length;
  }
}

interface Clicks extends Events {
  click: { x: number; y: number };
  close: string;
}

const clicks = new Emitter<Clicks>("window");
let total = 0;
const stop = clicks.on("click", ({ x, y }: Clicks["click"]) => {
  (total as any) += x * y;
});
clicks.once("close", (why: string): void => console.log("closed", why));
clicks.emit("click", { x: 2, y: 3 });
clicks.emit("click", { x: 4, y: 5 });
stop();
console.log(total, clicks.emit("click", { x: 1, y: 1 }), clicks.emit("close", "done"), clicks.emit("close", "again"));
console.log(Emitter.created, Emitter.names, clicks.describe?.(), Object.keys(clicks), "secret" in clicks);
