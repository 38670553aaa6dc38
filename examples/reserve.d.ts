export declare function reserve ( seat : number , guest ? : string , { vip } ? : any , note : any )
export default function ( seats = 1 )
