export const person = { name, age: 4n, get seat() { return 1; }, pay() {}, ["row"]: /x/, find: this };
