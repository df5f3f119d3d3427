// A log with levels: enums with numbers, texts and flags, in two blocks, in a function, with members that are computed.
import type { Sized } from "./queue.mjs";

export enum Level {
  Debug = 10,
  Info = Debug * 2,
  Warning,
  Error = Info << 1,
  "not set" = -1,
}

export enum Level {
  Fatal = Level.Error + 1,
}

enum Mark {
  Open = "<",
  Close = ">",
}

const enum Part {
  None = 0,
  Time = 1 << 0,
  Name = 1 << 1,
  All = Time | Name,
}

const { length } = Mark.Open + Mark.Close;

enum Width {
  Edges = length,
  Name = Math.max(Edges, 7),
  Line = Edges + Name,
}

interface Entry {
  level: Level;
  text: string;
}

export default class Log implements Sized {
  private readonly entries: Entry[] = [];

  constructor(name: string, parts: Part = Part.All) {
    this.name = name;
    this.parts = parts;
  }

  private name: string;
  private parts: Part;

  get size(): number {
    return this.entries.length;
  }

  add(text: string, level: Level = Level.Info): this {
    this.entries.push({ level, text } as Entry);
    return this;
  }

  counts(): Map<string, number> {
    enum Step {
      One = 1,
    }
    const counts = new Map<string, number>();
    for (const { level } of this.entries) {
      const name = Level[level]!;
      counts.set(name, (counts.get(name) ?? 0) + Step.One);
    }
    return counts;
  }

  lines(least: Level = Level.Debug): string[] {
    const has = (part: Part): boolean => (this.parts & part) !== Part.None;
    return this.entries
      .filter(({ level }) => level >= least)
      .map(({ level, text }, index) => {
        const time = has(Part.Time) ? `${index} ` : "";
        const name = has(Part.Name) ? Level[level]!.padEnd(Width.Name) : "";
        return `${time}${Mark.Open}${name}${Mark.Close} ${text}`;
      });
  }
}

const log = new Log("main").add("begins", Level.Debug).add("runs").add("stops", Level.Fatal).add("odd", Level["not set"]);
for (const line of log.lines()) console.log(line);
console.log(log.size, [...log.counts()].join(" "));
console.log(Object.entries(Level).join(" "), Level[Level.Error], Level[-1]);
console.log(Object.keys(Mark).join(), Object.values(Width).join(), Mark["Open"]);
