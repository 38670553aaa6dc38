export declare const open : any
export declare const [left, right]
export declare const pair : readonly [ number , any ]
export declare let later : any
