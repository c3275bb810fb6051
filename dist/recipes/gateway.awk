# Converts the raw lines of a gateway to log lines: awk -f gateway.awk FILE | n2k
#
# Yacht Devices (YDWG, YDEN, YDNU): `17:33:21.107 R 19F51323 01 2F 30 70`, a received frame. Actisense (N2K ASCII):
# `A173321.107 23FF7 1F513 012F3070`, a whole message, so the command after it is n2k --whole. Both have the time of day without a
# date: `-v date=2026-11-30` is that of the first line, and a time that goes back by more than twelve hours is of the next day.
# Without it the lines of Yacht Devices are of 1970-01-01, and those of Actisense keep their time. Other lines become comments.
function hex(text,    at, number) {
    for (at = 1; at <= length(text); at++) number = 16 * number + index("123456789ABCDEF", toupper(substr(text, at, 1)))
    return number + 0
}
# The days from 1970-01-01 to a date, counted from March of year 0.
function days_of(text,    year, month) {
    month = substr(text, 6, 2) + 0; year = substr(text, 1, 4) - (month < 3); month = (month + 9) % 12
    return 365 * year + int(year / 4) - int(year / 100) + int(year / 400) + int((153 * month + 2) / 5) + substr(text, 9, 2) - 719469
}
# The date this many days after 1970-01-01.
function date_of(days,    year, month) {
    days += 719468
    year = 400 * int(days / 146097); days %= 146097
    month = int((days - int(days / 1460) + int(days / 36524) - int(days / 146096)) / 365)
    year += month; days -= 365 * month + int(month / 4) - int(month / 100)
    month = int((5 * days + 2) / 153)
    return sprintf("%04d-%02d-%02d", year + (month > 9), month + (month > 9 ? -9 : 3), days - int((153 * month + 2) / 5) + 1)
}
# The seconds since 1970 of a time of day.
function moment(hours, minutes, seconds,    now) {
    now = 3600 * hours + 60 * minutes + seconds
    if (now < last - 43200) day++
    last = now
    return 86400 * day + now
}
BEGIN { if (date != "") day = days_of(date) }
{ sub(/\r$/, "") }
$2 == "R" && $1 ~ /^[0-9][0-9]:[0-9][0-9]:[0-9][0-9]\.[0-9]+$/ {
    split($1, time, ":")
    line = sprintf("(%.3f) can0 %s#", moment(time[1], time[2], time[3]), $3)
    for (at = 4; at <= NF; at++) line = line $at
    print line
    fflush()
    next
}
# The second column is source, destination and priority, the third the PGN.
/^A[0-9]+\.[0-9]+ [0-9A-Fa-f]+ [0-9A-Fa-f]+ [0-9A-Fa-f]+$/ {
    size = length($4) / 2
    gsub(/../, ",&", $4)
    if (date != "") {
        moment(substr($1, 2, 2), substr($1, 4, 2), substr($1, 6))
        $1 = date_of(day) "T" substr($1, 2, 2) ":" substr($1, 4, 2) ":" substr($1, 6) "Z"
    }
    print $1 "," substr($2, 5) "," hex($3) "," hex(substr($2, 1, 2)) "," hex(substr($2, 3, 2)) "," size $4
    fflush()
    next
}
{ print "# " $0 }
