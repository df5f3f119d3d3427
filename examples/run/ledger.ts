// Accounts and their ledger: parameter properties, and fields of each sort, some with keys that tell when they are computed.
const lines: string[] = [];
const note = <T>(what: T): T => {
  lines.push(String(what));
  return what;
};

const total = "total";
let last = "first";

class Entry {
  static #made = 0;
  static latest?: Entry;
  readonly number = ++Entry.#made;
  constructor(public readonly amount: number, protected memo = "-") {
    Entry.latest = this;
  }
  get text(): string {
    return `${this.number}: ${this.amount} ${this.memo}`;
  }
}

class Transfer extends Entry {
  to?: string;
  [note("key of from")] = note("value of from");
  private from = this.amount < 0 ? "us" : "them";
  constructor(amount: number, override memo: string, public party: string | null = null) {
    note("in front of super");
    super(amount, memo);
    note(`behind super: ${this.from} ${this.party}`);
  }
  get [note("key of a getter")](): string {
    return this.from;
  }
  [note("key of nothing")]?: string;
  static [note("key of a static field")] = note(`value of a static field: ${this.name}`);
}

class Watched {
  set seen(value: string) {
    note(`set to ${value}`);
  }
  declare known: string;
}

class Watching extends Watched {
  seen = note("a value");
  known = "here";
  empty: string | undefined;
  [total] = 1;
  [last] = (last = "second");
  run = () => note(this.seen);
}

class Account {
  #entries: Entry[] = [];
  static readonly kinds = ["plain", ...["saved"]];
  static {
    note(`kinds: ${this.kinds}`);
  }
  open = this.#entries.length === 0;
  "two words" = this.open ? 1 : 0;
  9 = "nine";
  constructor(readonly owner: string, private limit = 100, ...first: number[]) {
    for (const amount of first) this.add(new Entry(amount));
  }
  add(entry: Entry): this {
    if (entry.amount > this.limit) throw new RangeError(`${this.owner}: ${entry.amount} > ${this.limit}`);
    this.#entries.push(entry);
    return this;
  }
  get sum(): number {
    return this.#entries.reduce((sum, { amount }) => sum + amount, 0);
  }
}

const transfer = new Transfer(-3, "rent", "the owner");
const account = new Account("a", 50, 1, 2).add(transfer);
const watching = new Watching();
watching.run();
for (const object of [transfer, account, watching]) {
  console.log(object.constructor.name, Object.keys(object).sort().join());
}
console.log(transfer.text, account.sum, account["two words"], account[9], watching[total], watching.known, "empty" in watching);
console.log(Entry.latest === transfer, Object.keys(Transfer).join(), Object.keys(Account).join(), last);
try {
  account.add(new Entry(51));
} catch (error) {
  console.log((error as Error).message);
}
console.log(lines.join("\n"));

const made = [class { n = 1; }, class extends Array<number> { constructor(public size: number) { super(); } }].map((Made) => new Made(7));
console.log(made.map((one) => JSON.stringify(one)).join(" "));
export { Account, Transfer, Watching, lines };
