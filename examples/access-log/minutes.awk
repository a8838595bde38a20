# Makes buckets of the lines of an access log, one for each minute of their time stamps, with a run after each bucket
# that has lines. A minute without lines is an empty bucket. A line of an earlier minute, or without a time stamp,
# counts with the minute that is being collected.
#
# awk [-v strip=1] -f minutes.awk access.log
#
# With strip=1 lines lose their time stamps, so that these are not counted as words.
BEGIN {
  split("Jan Feb Mar Apr May Jun Jul Aug Sep Oct Nov Dec", names, " ")
  for (i = 1; i <= 12; i++) month_of[names[i]] = i
  most_quiet = 4096 # no circle has more places, so more empty buckets would change nothing
}

# The number of the minute of a stamp such as 02/Nov/2026:09:58:03 +0100. Its years begin in March, so that a leap day
# is the last one.
function minute_of(stamp, part, month, year, days, zone) {
  split(stamp, part, "[/: ]")
  month = month_of[part[2]]
  year = part[3] - (month < 3)
  days = 365 * year + int(year / 4) - int(year / 100) + int(year / 400)
  days += int((153 * ((month + 9) % 12) + 2) / 5) + part[1]
  zone = 60 * substr(part[7], 2, 2) + substr(part[7], 4, 2)
  return 1440 * days + 60 * part[4] + part[5] - (part[7] ~ /^-/ ? -zone : zone)
}

# The number of a bucket's lines comes before them, so a minute is written when it is over.
function give_minute(i) {
  print "bucket " count
  for (i = 1; i <= count; i++) print lines[i]
  print "run"
  fflush()
  count = 0
}

{
  if (match($0, "\\[[0-9]+/[A-Z][a-z]+/[0-9:]+ [-+][0-9]+\\]")) {
    at = minute_of(substr($0, RSTART + 1, RLENGTH - 2))
    if (strip) $0 = substr($0, 1, RSTART - 1) substr($0, RSTART + RLENGTH + 1)
    if (minute && at > minute) {
      give_minute()
      for (i = 1; i < at - minute && i <= most_quiet; i++) print "bucket 0"
    }
    if (at > minute) minute = at
  }
  lines[++count] = $0
}

END { if (count) give_minute() }
