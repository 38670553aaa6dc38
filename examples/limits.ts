export const limits = Object.freeze({ rows: 12, seats: [1, 2] });
export const frozen = Object.freeze(limits);
