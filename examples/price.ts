export class Seat {}
export const price = (seats: number, rate = 2, [a] = [1]): number => seats * rate;
export const make = function () { return new Seat(); };
export const seat = new Seat();
export const again = price;
