export enum Row {
  Front = 1,
  Back = -1,
  Middle = Front + 2,
  Named = "row".length,
  Last,
}
