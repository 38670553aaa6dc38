declare const _dts_1 : { readonly open : boolean ; readonly rows : readonly [ number , any , string ] ; }
export default _dts_1
