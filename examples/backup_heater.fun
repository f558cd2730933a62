# readings: outside, flow, target
let cold = outside <= -7 in
let short = flow + 5 <= target in
if cold then (if short then 1 else 0) else 0
