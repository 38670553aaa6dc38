export declare const seats : { readonly confirmed : number ; }
