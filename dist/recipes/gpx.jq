# Prints track and waypoints of JSON lines as GPX 1.1, for chart plotters and OpenCPN: jq -rf gpx.jq boat.json
#
# The track has a point every 10 seconds, or every N with --arg every N. Positions are those of the first sender; another one takes
# its place after a minute without a position. After ten minutes without a position a new segment begins. Waypoints are the
# destinations (129284), men overboard (127233), and those of routes and lists if the table has them.
include "n2k" {search: "./"};

# A character that XML does not allow, or a bidirectional control, becomes a space.
def xml: gsub("[[:cntrl:]\u061c\u200e\u200f\u202a-\u202e\u2066-\u2069\ufffe\uffff]"; " ") | @html;
# With 7 decimals, as on the bus; jq may write a small number with an exponent.
def coordinate:
    (. * 1e7 | fabs | round) as $whole
    | (if . < 0 then "-" else "" end) + "\($whole / 1e7 | floor)." + ("000000\($whole % 10000000)" | .[-7:]);
def place: select(.[0] >= -90 and .[0] <= 90 and .[1] >= -180 and .[1] <= 180)
    | "lat=\"\(.[0] | coordinate)\" lon=\"\(.[1] | coordinate)\"";
def timed: if seconds then "<time>\(.)</time>" else "" end;
def point($stamp; $at): "<trkpt \($at)>\($stamp | timed)</trkpt>";

# The waypoints of a message, each with its name and its position.
def waypoints:
    .fields as $fields
    | if .pgn == 129284 then
          {name: "Destination \($fields."Destination Waypoint Number" // "")" | sub(" $"; ""),
           at: [$fields."Destination Latitude", $fields."Destination Longitude"]}
      elif .pgn == 127233 then
          $fields | select(."Man Overboard Status" | tostring | test("ctivated")) | {name: "Man overboard", at: [.Latitude, .Longitude]}
      else $fields.list | arrays | .[] | objects | {name: (."WP Name" // "Waypoint \(."WP ID" // "")" | tostring), at: [."WP Latitude", ."WP Longitude"]}
      end
    | select(.at[0] and .at[1]) | (.at | place) as $at | .at = $at;

($ARGS.named.every // 10 | tonumber) as $every
# Strings are parts of the track, objects are waypoints. A null follows the last line.
| [foreach (lines, null) as $m ({};
      if $m == null then .say = .left
      elif ($m.pgn == 129025 or $m.pgn == 129029) and $m.fields.Latitude and $m.fields.Longitude then
          ($m.timestamp | iso) as $stamp | ($stamp | seconds) as $second
          | if .src == null or .src == $m.src or $second == null or $second - .at > 60 then
                ([$m.fields.Latitude, $m.fields.Longitude] | place) as $at
                | (.src != null and $second != null and ($second - .at > 600 or $second < .at)) as $gap
                | if $gap or .kept == null or $second == null or $second - .kept >= $every then
                      {src: $m.src, at: $second, kept: $second, left: null,
                       say: ((if $gap then (.left // "") + "</trkseg><trkseg>" else "" end) + point($stamp; $at))}
                  else .at = $second | .left = point($stamp; $at) | .say = null end
            else .say = null end
      else .say = null end;
      .say // empty, if $m then $m | waypoints else empty end)]
| "<?xml version=\"1.0\" encoding=\"UTF-8\"?>",
  "<gpx version=\"1.1\" creator=\"n2kdec\" xmlns=\"http://www.topografix.com/GPX/1/1\">",
  (reduce (.[] | objects) as $one ({}; .[$one | tojson] = $one) | .[] | "<wpt \(.at)><name>\(.name | xml)</name></wpt>"),
  if any(.[]; type == "string") then "<trk><trkseg>", (.[] | strings), "</trkseg></trk>" else empty end,
  "</gpx>"
