# readings: hour, load
let night = if 22 <= hour then true else hour <= 5 in
if night then 30 else if 60 <= load then 100 else load
