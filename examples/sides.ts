export const sides = ["left", -2, true, undefined] as const;
