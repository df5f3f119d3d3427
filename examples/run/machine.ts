// A state machine that tells of each step through an emitter.
import Emitter, { type Events, type Listener, Source } from "./emitter.mjs";
import type { Cache } from "./cache.mjs";
import { Token } from "./calculator.mjs";

export type { Listener } from "./emitter.mjs";
export { Source as EventSource, type Events };

type Steps<State extends string, Input extends string> = Readonly<Record<State, Partial<Record<Input, State>>>>;

interface Step<State> {
  from: State;
  to: State;
  input: string;
}

export interface Machine<State extends string, Input extends string> {
  readonly state: State;
  send(input: Input): boolean;
  onStep(listener: Listener<Step<State>>): () => void;
}

let tokensSeen: Token["kind"][] | undefined;
let kept: Cache<string, number> | null = null;

export function createMachine<State extends string, Input extends string>(
  start: NoInfer<State>,
  steps: Steps<State, Input>,
): Machine<State, Input> {
  type Of = { step: Step<State> } & Events;
  const emitter = new Emitter<Of>(`machine from ${start}`);
  let state: State = start;
  return {
    get state(): State {
      return state;
    },
    send(input: Input): boolean {
      const to = steps[state]?.[input] as State | undefined;
      if (!to) return false;
      const from = state;
      state = to!;
      emitter.emit("step", { from, to, input } as Step<State>);
      return true;
    },
    onStep(this: unknown, listener) {
      return emitter.on("step", listener);
    },
  };
}
type NoInfer<T> = [T][T extends any ? 0 : never];

const door = createMachine<"open" | "closed" | "locked", "push" | "pull" | "turn">("closed", {
  open: { push: "closed" },
  closed: { pull: "open", turn: "locked" },
  locked: { turn: "closed" },
});
const stop = door.onStep(({ from, to, input }) => console.log(`${from} --${input}--> ${to}`));
console.log((["pull", "turn", "push", "turn", "pull"] as const).map((input) => door!.send(input)), door.state);
stop();
door.send("turn");
console.log(door["state"]! as string, tokensSeen?.length, kept);
