export function reserve(seat: number, guest = "nobody", { vip } = pick(), note) { return seat; }
export default async function (seats = 1) {}
