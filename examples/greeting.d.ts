export declare const greeting : string
export declare const fixed : "Hello"
