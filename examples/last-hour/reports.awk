# Writes 63 minutes of made-up weather reports, two in each minute and all minutes different, with a run after each
# minute from the 60th on.
BEGIN {
  split("harbour airport bridge tower meadow quarry mill", place, " ")
  split("rain wind sun cloud fog hail snow frost dew mist", sky, " ")
  for (minute = 1; minute <= 63; minute++) {
    print "bucket 2"
    print place[minute % 7 + 1] ": " sky[3 * minute % 10 + 1]
    rare = minute == 2 || minute == 61 ? ", thunder" : ""
    print place[(minute + 3) % 7 + 1] ": " sky[(3 * minute + 1) % 10 + 1] rare
    if (minute >= 60) print "run"
  }
}
