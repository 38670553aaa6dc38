export const open = check();
export const [left, right] = split();
export const pair = [1, check()];
export let later;
