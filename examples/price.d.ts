export declare class Seat { }
export declare const price : ( seats : number , rate : number , _dts_1 : [ number ] ) => number
export declare const make : ( ) => any
export declare const seat : Seat
export declare const again : typeof price
