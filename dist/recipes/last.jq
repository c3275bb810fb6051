# Prints the last value of everything as a table: watch -n 1 'tail -n 2000 boat.json | jq -rf last.jq'
#
# The values most looked for on board, from depth to engines, come first; address claims and product information come last. Times are
# UTC, with dates if the lines are of several days. The last message of each sender, PGN and thing (n2k.jq lists the fields that
# distinguish things) counts: a field that it lacks is not available now. The values of sets are not shown. Units are those of
# units.json; after convert degrees, --arg units degrees gives its units, and --arg units knots those with knots. For a table of your
# own use --slurpfile own FILE, with the output of `tools/units TABLE`.
include "n2k" {search: "./"};
import "units" as $known {search: ["..", "../../tables"]};

def padded($width): . + (" " * ($width - length) // "");
# Flags are names and numbers of bits.
def shown: if type == "string" then . elif type == "array" then map(tostring) | join(", ") | if . == "" then "none" else . end else tojson end;
# Each line break, control character and bidirectional control in a text becomes a space.
def plain: "[[:cntrl:]\u061c\u200e\u200f\u202a-\u202e\u2066-\u2069]" as $obeyed | if test($obeyed) then gsub($obeyed; " ") else . end;
# Seconds in a field for a running time become hours, with one decimal.
def is_hours: test("\\b([Hh]ours|Run Time|Motor Time|Operating Time)\\b");
def unit_names:
    {date: "days", time: "s"}
    + if . == null then {} else {rad: "deg", "rad/s": "deg/s", K: "°C", Pa: "hPa", date: null, time: null} end
    + if . == "knots" then {"m/s": "knots"} else {} end;
# The order of PGNs: by their place in this list, then all others, then those about the bus itself.
def ranks:
    [127233, 128267, 128259, 129026, 130306, 129025, 129029, 127488, 127489, 127493, 127250, 127245, 127505, 127508] as $first
    | [59392, 59904, 60160, 60416, 65240, 126208, 126464, 126993, 126998, 60928, 126996] as $last
    | reduce range($first | length) as $at ({}; .[$first[$at] | tostring] = $at) | reduce range($last | length) as $at (.; .[$last[$at] | tostring] = 100 + $at);

ranks as $ranks | things as $things | ($things | keys) as $names | ($ARGS.named.own // $known::known)[0] as $units | ($ARGS.named.units | unit_names) as $called
# The days are beside the messages, whose keys begin with a bracket: jq copies deeper values.
| reduce lines as $m ({};
      (if .has_days then . elif .day == null then .day = $m.timestamp[:10] else .has_days = .day != $m.timestamp[:10] end)
      | setpath([$m | [.pgn, .src, .description, (.fields | .[keys_unsorted[] | select($things[.])])] | tojson]; $m))
| (.has_days and (.day | test("^\\d{4}-\\d\\d-\\d\\d$"))) as $has_days
| del(.day, .has_days) | [.[]] | sort_by($ranks[.pgn | tostring] // 50, .pgn, .src, .description)
| [.[] as $m | ($units[$m.pgn | tostring][$m.description] // {}) as $mine
    | ([$m.fields[$names[]] | values | shown] | join(", ")) as $thing
    | $m.fields | to_entries[] | select((.key != "list" or (.value | type != "array" or any(.[]; type != "object"))) and .value != null and $things[.key] == null)
    | $mine[.key] as $unit
    | [($m.timestamp | iso | if $has_days then .[:10] + " " else "" end + .[11:19]), "\($m.src)", $m.description, $thing, .key,
       if $unit == "s" and (.value | type) == "number" and (.key | is_hours) then "\(.value / 360 | round / 10) h" else
       (.value | shown) + (if $unit and (.value | type) == "number" then
           ($called | if has($unit) then .[$unit] else $unit end) as $name | if $name then " " + $name else "" end else "" end) end]]
| [["time UTC", "src", "message", "of", "field", "value"]] + . | (transpose | map(map(length) | max)) as $widths
| .[] | .[-1] as $value | [range(length - 1) as $at | .[$at] | padded($widths[$at])] + [$value] | join("  ") | plain
