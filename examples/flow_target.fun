# readings: outside
let heat = fun limit -> fun level ->
  if outside <= limit then level else 0
in
  (heat -5 40 + heat 0 20) + heat 10 15
