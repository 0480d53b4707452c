x
--> y