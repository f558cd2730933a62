# readings: coil
let twice = fun f -> fun n -> f (f n) in
let add_256 =
  twice (twice (twice (twice (twice (twice (twice (twice (fun n -> n + 1))))))))
in
  add_256 coil
