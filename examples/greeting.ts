export const greeting = `Hello ${guest}`;
export const fixed = `Hello` as const;
