declare const first : string[]
export declare const all : readonly [ ... typeof first , string , ... [ number , number ] ]
export declare const more : any
