export declare const sides : readonly [ "left" , -2 , true , undefined ]
