(fun f -> fun x -> x + f x) (fun y -> y + y) 7
