# readings: coil
if coil then 1 else 0
