/* checking.mjs: numbers that look random, and are the same for the same seed; and what a check wants. For the checks beside it. */
let state = 1;

export function seed(number) {
  state = (number * 2654435761) >>> 0 || 1;
}

export function chance(below) {
  state ^= state << 13;
  state ^= state >>> 17;
  state ^= state << 5;
  return (state >>> 0) % below;
}

export function expect(got, wanted, told) {
  if (JSON.stringify(got) !== JSON.stringify(wanted)) throw new Error(`${told}: ${JSON.stringify(got)}, wanted ${JSON.stringify(wanted)}`);
}
