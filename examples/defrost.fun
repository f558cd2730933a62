# readings: coil
if 80 <= coil then 1 else 0
