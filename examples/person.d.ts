export declare const person : { readonly age : bigint ; readonly [ "row" ] : RegExp ; readonly find : any ; }
