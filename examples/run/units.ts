// Lengths and their units, in namespaces.
function Units(value: number): string {
  return Units.Text.show(value, Units.metre);
}
namespace Units {
  export interface Unit { readonly name: string; readonly metres: number }
  export const metre: Unit = { name: "metre", metres: 1 }, foot: Unit = { name: "foot", metres: 0.3048 };
  export function convert(value: number, from: Unit, to: Unit = metre): number {
    return (value * from.metres) / to.metres;
  }
  export class Length {
    declare private note?: string;
    constructor(value: number, unit: Unit) {
      this.metres = convert(value, unit);
    }
    readonly metres: number;
    plus(other: Length): Length {
      return new Length(this.metres + other.metres, metre);
    }
  }
  export const { hypot, round: [rounded] } = { hypot: Math.hypot, round: [Math.round] };
}
namespace Units.Text {
  export enum Style { Short, Long = "long" }
  type Styled = Style | undefined;
  export const show = (value: number, unit: Units.Unit, style: Styled = Style.Short): string =>
    `${value.toFixed(2)} ${style === Style.Long ? unit.name : unit.name[0]}`;
  namespace Hidden {
    console.log("a namespace runs where it stands:", typeof show);
  }
}
namespace Types {
  export type Side = Units.Length;
}
declare namespace Ambient {
  const nowhere: number;
}

import Style = Units.Text.Style;
import Length = Units.Length;
import Unused = Units.foot;

const side = (value: number): Types.Side => new Length(value, Units.foot);
const whole = side(3).plus(side(4));
console.log(Units(2), Units.Text.show(whole.metres, Units.metre, Style.Long), Style.Short, Style[0]);
console.log(Units.rounded(Units.hypot(3, 4)), Units.convert(1, Units.metre, Units.foot).toFixed(3));
console.log(Object.keys(Units).join(), Object.keys(Units.Text).join(), typeof Ambient);

export { Units, Style, Length };
