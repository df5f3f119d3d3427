// Decorated members of each sort: what a decorator is given, and what becomes of what it gives back.

const described = (descriptor: PropertyDescriptor | undefined): string =>
  descriptor === undefined ? "none" : Object.keys(descriptor).sort().join();

const told = (target: any, key: string | symbol, descriptor?: PropertyDescriptor): void => {
  const owner = typeof target === "function" ? `class ${target.name}` : target.constructor.name;
  console.log(`${owner} ${String(key)}: ${described(descriptor)}`);
};

const doubled = (_target: unknown, _key: string | symbol, descriptor: PropertyDescriptor): PropertyDescriptor => {
  const inner = descriptor.value as (...values: number[]) => number;
  return { ...descriptor, value(...values: number[]) { return 2 * inner.apply(this, values); } };
};

const named = (name: string) => {
  console.log(`evaluated ${name}`);
  return (_target: unknown, key: string | symbol): void => { console.log(`applied ${name} to ${String(key)}`); };
};

const at = (_target: unknown, key: unknown, index: number): void => { console.log(`parameter ${index} of ${String(key)}`); };

let keys = 0;
const key = (): string => `key${(keys += 1)}`;
const mark = Symbol("mark");

abstract class Shape {
  @told name: string = "shape";
  @told declare kind: string;
  @told 2 = "two";
  @told "spaced key" = 1;
  @named("first") @named("second") area(@at scale: number, @at @at first: number, ...more: number[]): number { return scale * (first + more.length); }
  @doubled twice(value: number): number { return value + this.name.length; }
  @told get size(): number { return this.name.length; }
  @told set length(@at value: number) { this.name = "x".repeat(value); }
  @told [key()](): string { return "computed"; }
  @told [mark] = 3;
  @told async *each(): AsyncGenerator<number> { yield 1; }
  @told static unit: number = 1;
  @told static make(@at name?: string): Shape { return new Square(name); }
  abstract sides(): number;
}

class Square extends Shape {
  constructor(name = "square") { super(); this.name = name; }
  @doubled override twice(value: number): number { return super.twice(value) + 1; }
  sides(): number { return 4; }
}

const square = Shape.make();
console.log(square.area(3, 1, 2), square.twice(5), square.size, square.sides());
square.length = 3;
console.log(square.name, (square as any).key1(), keys, Object.keys(square).join());
