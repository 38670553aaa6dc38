export declare enum Row { Front = 1 , Back , Middle = Front + 2 , Named = "row" . length , Last }
