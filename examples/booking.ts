export class Booking<T> {
  #token = 1;
  static count = 0;
  note: string = "";
  guest;
  open = check();
  ["row"] = 4;
  constructor(public name: string, seat = 1, wish) { this.guest = wish; }
  [Symbol.iterator](): Iterator<T> { return walk(this); }
  [pick()](): void {}
  get size(): number { return 1; }
  set size(value: number) {}
}
