// Types that decorators are told, where a Reflect.metadata stands to note them.

type Noted = [member: string, key: string, written: string];

const noted: Noted[] = [];

const nameOf = (written: unknown): string =>
    Array.isArray(written) ? `[${written.map(nameOf).join(", ")}]` : typeof written === "function" ? written.name : String(written);

(Reflect as any).metadata = (key: string, written: unknown) => (target: unknown, member?: string) => {
    noted.push([member ?? (target as Function).name, key, nameOf(written)]);
};

const seen = (_target: unknown, _member?: string): void => {};

enum Size { Small, Large }

enum Colour { Red = "red", Blue = "blue" }

class Point {
    constructor(readonly x: number, readonly y: number) {}
}

@(seen as any)
class Shape {
    @seen name: string = "";
    @seen size: Size = Size.Small;
    @seen colour?: Colour;
    @seen at: Point | null = null;
    @seen either: string | number = 0;
    @seen sides: readonly Point[] = [];
    @seen isOpen!: boolean;
    @seen total!: bigint;
    @seen mark!: symbol;
    @seen plain: unknown;
    @seen late!: () => void;

    constructor(origin: Point, scale: number = 1) {
        this.at = new Point(origin.x * scale, origin.y * scale);
    }

    @seen move(by: Point, steps: number): void {}

    @seen async load(name: "a" | "b"): Promise<void> {}

    @seen get area(): number { return 1; }

    @seen static of(colour: Colour, size?: Size): Shape { return new Shape(new Point(0, 0)); }
}

for (const [member, key, written] of noted) console.log(`${member} ${key} ${written}`);
