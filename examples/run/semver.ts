// Versions by the rules of semantic versioning, and ranges of them.
type Sign = -1 | 0 | 1;
export type Part = number | string;

const PATTERN = /^(\d+)\.(\d+)\.(\d+)(?:-([0-9a-z.-]+))?$/i;

function sign(value: number): Sign {
  return (value < 0 ? -1 : +(value > 0)) as Sign;
}

export default class Version {
  readonly numbers: readonly [major: number, minor: number, patch: number];
  readonly pre: readonly Part[];
  static readonly zero: Version = new Version("0.0.0");

  constructor(text: string);
  constructor(other: Version);
  constructor(from: string | Version) {
    const found = PATTERN.exec(String(from));
    if (!found) throw new TypeError(`no version: ${from as string}`);
    const [, major, minor, patch, pre = ""] = found as unknown as [string, string, string, string, string?];
    this.numbers = [+major!, +minor!, +patch!];
    this.pre = pre ? pre.split(".").map((part): Part => (/^\d+$/.test(part) ? Number(part) : part)) : [];
  }

  get [Symbol.toStringTag](): string {
    return "Version" as const;
  }

  compare(other: Version | string): Sign {
    const that: Version = typeof other === "string" ? new Version(other) : other;
    for (const at of [0, 1, 2] as const) {
      const by = sign(this.numbers[at] - that.numbers[at]);
      if (by) return by;
    }
    return comparePre(this.pre, that.pre);
  }

  bump(this: Version, level: "major" | "minor" | "patch"): Version {
    const numbers = [...this.numbers] as [number, number, number];
    const at: 0 | 1 | 2 = level === "major" ? 0 : level === "minor" ? 1 : 2;
    numbers[at]! += 1;
    numbers.fill(0 as number, at + 1);
    return new Version(numbers.join("."));
  }

  toString(): string {
    return this.numbers.join(".") + (this.pre.length ? `-${this.pre.join(".")}` : "");
  }
}

function comparePre(a: readonly Part[], b: readonly Part[]): Sign;
function comparePre([...a]: readonly Part[], b: readonly Part[], at: number = 0): Sign {
  if (!a.length || !b.length) return sign(+!a.length - +!b.length);
  for (; at < a.length && at < b.length; at++) {
    const x = a[at]!, y = b[at]!;
    if (x === y) continue;
    if (typeof x !== typeof y) return typeof x === "number" ? -1 : 1;
    return (x as number) < (y as number) ? -1 : 1;
  }
  return sign(a.length - b.length);
}

export function compare(a: string, b: string): Sign {
  return new Version(a).compare(b);
}

const tests = {
  "^": (v: Version, w: Version) => v.compare(w) >= 0 && v.numbers[0] === w.numbers[0],
  "~": (v: Version, w: Version) => v.compare(w) >= 0 && v.numbers[0] === w.numbers[0] && v.numbers[1] === w.numbers[1],
  ">=": (v: Version, w: Version) => v.compare(w) >= 0,
  "=": (v: Version, w: Version) => v.compare(w) === 0,
} as { readonly [mark: string]: (v: Version, w: Version) => boolean };

export const satisfies = (version: string, range: string): boolean =>
  range.split(/\s+/).every((text) => {
    const [, mark, of] = /^(\^|~|>=|=)?(.+)$/.exec(text)! as readonly string[];
    return tests[mark || "="]!(new Version(version), new Version(of!));
  });

const sorted: string[] = ["1.0.0", "1.0.0-rc.1", "1.0.0-alpha.beta", "1.0.0-alpha.1", "0.9.12", "1.0.0-alpha", "1.0.0-rc.11", "1.0.0-rc.2"].sort(compare);
console.log(sorted.join(" "));
console.log(satisfies("1.4.2", "^1.2.0"), satisfies("2.0.0", "^1.2.0"), satisfies("1.2.9", "~1.2.3 >=1.2.4"));
console.log(`${new Version("1.2.3-x").bump("minor")}`, Object.prototype.toString.call(Version.zero), compare("1.0.0", "1.0.0"));
