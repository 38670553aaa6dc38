export const seats = { confirmed: 0, ...held };
