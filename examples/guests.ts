const first: string[] = ["Ada"];
export const all = [...first, "Grace", ...[1, 2]];
export const more = [...others(), "Grace"];
