export namespace hall.left {
  export const rows = 12;
  fill(rows);
}
