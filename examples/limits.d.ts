export declare const limits : { readonly rows : number ; readonly seats : readonly [ number , number ] ; }
export declare const frozen : any
