import { held } from "./held.ts";
export * from "./hall.ts";
export interface Guest { name: string; }
export type Seat = number;
export { held };
export default held
