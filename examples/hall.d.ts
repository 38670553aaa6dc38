export declare namespace hall . left {
  export const rows : number
}
