# Prints JSON lines as sentences of NMEA 0183 with checksums: jq -rf nmea0183.jq; on a live bus with --unbuffered
#
# RMC (one a second), GGA, HDG or HDT, VHW, DBT, MWV, XTE, RSA, MTW, and XDR of engines, tanks, batteries, temperatures,
# humidity, pressure, pitch and roll. AIS targets and other messages give nothing. Of several senders of one PGN the first
# counts, and another one after ten seconds of silence; things with an instance are distinguished by it. Angles and distances
# have the sentences' units; a sentence of more than 82 bytes is left out. The time of RMC is the timestamp's; an unknown field is
# empty. Positive is east, starboard, and for XTE right of the track, as in Signal K's converters. The names in XDR are those of
# NMEA 0183 4.10, such as FUEL#0.
include "n2k" {search: "./"};

# A checksum is the exclusive or of all bytes, which jq lacks: the ones in each of the seven bits are counted, all in
# one sum in base 128, since no sentence has more bytes; an odd count is a 1.
def spread: [range(128) as $byte | reduce range(7) as $bit (0; . + (($byte / pow(2; $bit) | floor) % 2) * pow(128; $bit))];
def checksum($spread):
    ([explode[] | $spread[.]] | add) as $sum
    | reduce range(7) as $bit (0; . + (($sum / pow(128; $bit) | floor) % 2) * pow(2; $bit))
    | "0123456789ABCDEF" as $digits | (. / 16 | floor) as $high | (. % 16) as $low | $digits[$high:$high + 1] + $digits[$low:$low + 1];
def sentence($spread): "$" + . + "*" + checksum($spread) + "\r";

def filled($width): "00000000\(.)" | .[-$width:];
def decimals($scale): if type == "number" then (. * $scale | round / $scale) + 0 else null end;
def told: if . == null then "" else tostring end;
# An angle in radians as degrees from 0 to 359.9; a signed angle; an angle without its sign, and the sign as a letter.
def degrees: if type == "number" then . * 1800 / 3.141592653589793 | round | (. % 3600 + 3600) % 3600 / 10 else null end;
def signed: if type == "number" then . * 1800 / 3.141592653589793 | (round / 10) + 0 else null end;
def lettered($positive; $negative): if . == null then "," elif . < 0 then "\(-.),\($negative)" else "\(.),\($positive)" end;
def knots: if type == "number" then . * 3600 / 1852 | decimals(100) else null end;
def celsius: if type == "number" then . - 273.15 | decimals(10) else null end;
# A coordinate as degrees and minutes with five decimals.
def minutes($width; $positive; $negative):
    if type != "number" then "," else
        (fabs * 6000000 | round) as $all | ($all % 6000000) as $rest
        | ($all / 6000000 | floor | filled($width)) + ($rest / 100000 | floor | filled(2)) + "." + ($rest % 100000 | filled(5))
            + (if . < 0 then ",\($negative)" else ",\($positive)" end)
    end;
def is_place: .Latitude and .Longitude and (.Latitude | fabs) <= 90 and (.Longitude | fabs) <= 180;
def place: (.Latitude | minutes(2; "N"; "S")) + "," + (.Longitude | minutes(3; "E"; "W"));
# A time of day in seconds, and the time of an ISO text, as hhmmss.ss.
def clock: if type == "number" then . * 100 | floor as $all | ($all / 360000 | floor | filled(2)) + ($all / 6000 | floor % 60 | filled(2))
        + ($all / 100 | floor % 60 | filled(2)) + "." + ($all % 100 | filled(2)) else "" end;
def iso_clock: .[11:13] + .[14:16] + .[17:19] + "." + (.[20:22] | rtrimstr("Z") + "00" | .[:2]);

def methods: {"no GNSS": [0, "N"], "GNSS fix": [1, "A"], "DGNSS fix": [2, "D"], "Precise GNSS": [3, "P"], "RTK Fixed Integer": [4, "R"],
    "RTK float": [5, "F"], "Estimated (DR) mode": [6, "E"], "Manual Input": [7, "M"], "Simulate mode": [8, "S"]};
def engine: if . == null or . == "Single Engine or Dual Engine Port" then 0 elif . == "Dual Engine Starboard" then 1 else . end;
def tanks: {"Fuel": "FUEL", "Water": "FRESHWATER", "Gray water": "WASTEWATER", "Live well": "LIVEWELLWATER", "Oil": "OIL", "Black water": "BLACKWATER"};
def rooms: {"Sea Temperature": "ENV_WATER_T", "Outside Temperature": "ENV_OUTAIR_T", "Inside Temperature": "ENV_INAIR_T"};
def air: {"Inside": "ENV_INAIR_H", "Outside": "ENV_OUTAIR_H"};
def named($names; $instance): . as $source | $names[tostring] // ("\($source // "")" | ascii_upcase | gsub("[^A-Z0-9]+"; "_")) + "#\($instance // 0)";

# Transducers, each as type, value, unit and name: at most three in a sentence, which has at most 82 bytes.
def transducers:
    map(select(.[1] != null) | map(tostring) | join(","))
    | range(0; length; 3) as $at | "IIXDR," + (.[$at:$at + 3] | join(","));
def temperature($source; $instance; $value):
    ($value | celsius) as $here
    | if $here == null then empty else
          if $source == "Sea Temperature" then "IIMTW,\($here),C" else empty end,
          ([["C", $here, "C", ($source | named(rooms; $instance))]] | transducers)
      end;
def pressure: if type == "number" then ["P", (. / 100000 | decimals(10000)), "B", "ENV_ATMOS_P"] else empty end;

# The values of a message that later sentences need.
def learnt($m):
    $m.fields as $f
    | if $m.pgn == 129026 then .sog = $f.SOG | .cog = $f.COG | .magnetic_cog = ($f."COG Reference" == "Magnetic")
      elif $m.pgn == 127258 then .variation = $f.Variation
      elif $m.pgn == 127250 then
          if $f.Variation then .variation = $f.Variation else . end
          | if $f.Reference == "Magnetic" then .magnetic = $f.Heading | .true = (if .variation and $f.Heading then $f.Heading + .variation else null end)
            elif $f.Reference != "True" then .
            else .true = $f.Heading | .magnetic = (if .variation and $f.Heading then $f.Heading - .variation else null end) end
      elif $m.pgn == 129029 then .method = ($f.Method | tostring)
      else . end;

# The sentences of a message; `.` is what earlier messages gave.
def said($m):
    . as $known | $m.fields as $f | $m.pgn as $pgn
    | if $pgn == 129025 then
          if $known.is_due and ($f | is_place) then
              (methods[$known.method // "GNSS fix"] // [1, "A"]) as [$quality, $mode]
              | "GPRMC,\(if $known.iso then $known.iso | iso_clock else "" end),\(if $quality == 0 then "V" else "A" end),\($f | place),\(
                  $known.sog | knots | told),\((if $known.magnetic_cog then if $known.cog and $known.variation then $known.cog + $known.variation else null end
                  else $known.cog end) | degrees | told),\(if $known.iso then $known.iso | .[8:10] + .[5:7] + .[2:4] else "" end),\(
                  $known.variation | signed | lettered("E"; "W")),\($mode)"
          else empty end
      elif $pgn == 129029 then
          if $f | is_place then
              "GPGGA,\($f.Time | clock),\($f | place),\((methods[$f.Method | tostring] // [1])[0]),\($f."Number of SVs" // "" | if . == "" then . else filled(2) end),\(
                  $f.HDOP | decimals(10) | told),\($f.Altitude | decimals(10) | told),M,\($f."Geoidal Separation" | decimals(10) | told),M,,"
          else empty end
      elif $pgn == 127250 then
          if $f.Heading == null then empty
          elif $f.Reference == "Magnetic" then
              "IIHDG,\($f.Heading | degrees),\($f.Deviation | signed | lettered("E"; "W")),\($known.variation | signed | lettered("E"; "W"))"
          elif $f.Reference == "True" then "IIHDT,\($f.Heading | degrees),T"
          else empty end
      elif $pgn == 128259 then
          $f."Speed Water Referenced" as $speed
          | if $speed == null then empty else
                "IIVHW,\($known.true | degrees | told),T,\($known.magnetic | degrees | told),M,\($speed | knots),N,\($speed * 3.6 | decimals(100)),K"
            end
      elif $pgn == 128267 then
          $f.Depth as $depth
          | if $depth == null then empty else
                "IIDBT,\($depth / 0.3048 | decimals(10)),f,\($depth | decimals(100)),M,\($depth / 1.8288 | decimals(10)),F"
            end
      elif $pgn == 130306 then
          ({"Apparent": "R", "True (boat referenced)": "T", "True (water referenced)": "T"}[$f.Reference | tostring]) as $reference
          | if $reference and ($f."Wind Angle" or $f."Wind Speed") then
                "IIMWV,\($f."Wind Angle" | degrees | told),\($reference),\($f."Wind Speed" | knots | told),N,A"
            else empty end
      elif $pgn == 129283 then
          if $f.XTE == null or $f."Navigation Terminated" == "Yes" then empty else
              ({"Differential enhanced": "D", "Estimated": "E", "Simulator": "S", "Manual": "M"}[$f."XTE mode" | tostring] // "A") as $mode
              | "IIXTE,A,A,\($f.XTE | fabs / 1852 | decimals(1000)),\(if $f.XTE < 0 then "R" else "L" end),N,\($mode)"
          end
      elif $pgn == 127245 then
          if $f.Position == null then empty
          elif ($f.Instance // 0) == 0 then "IIRSA,\($f.Position | signed),A,,V"
          elif $f.Instance == 1 then "IIRSA,,V,\($f.Position | signed),A"
          else empty end
      elif $pgn == 127257 then [["A", ($f.Pitch | signed), "D", "PTCH"], ["A", ($f.Roll | signed), "D", "ROLL"]] | transducers
      elif $pgn == 127488 then [["T", ($f.Speed | decimals(10)), "R", "ENGINE#\($f.Instance | engine)"]] | transducers
      elif $pgn == 127489 then
          ($f.Instance | engine) as $at
          | [["P", $f."Oil pressure", "P", "ENGOIL#\($at)"], ["C", ($f."Oil temperature" | celsius), "C", "ENGOIL#\($at)"],
             ["C", ($f.Temperature | celsius), "C", "ENGINE#\($at)"], ["U", $f."Alternator Potential", "V", "ALTERNATOR#\($at)"]] | transducers
      elif $pgn == 127505 then [["V", ($f.Level | decimals(10)), "P", ($f.Type | named({}; 0) | split("#")[0]) as $other
          | (tanks[$f.Type | tostring] // $other) + "#\($f.Instance // 0)"]] | transducers
      elif $pgn == 127508 then
          [["U", $f.Voltage, "V", "BATTERY#\($f.Instance // 0)"], ["I", $f.Current, "A", "BATTERY#\($f.Instance // 0)"]] | transducers
      elif $pgn == 130310 then
          temperature("Sea Temperature"; 0; $f."Water Temperature"), temperature("Outside Temperature"; 0; $f."Outside Ambient Air Temperature"),
          ([$f."Atmospheric Pressure" | pressure] | transducers)
      elif $pgn == 130311 then
          temperature($f."Temperature Source"; 0; $f.Temperature),
          ([["H", $f.Humidity, "P", ($f."Humidity Source" | named(air; 0))], ($f."Atmospheric Pressure" | pressure)] | transducers)
      elif $pgn == 130312 then temperature($f.Source; $f.Instance; $f."Actual Temperature")
      elif $pgn == 130313 then [["H", $f."Actual Humidity", "P", ($f.Source | named(air; $f.Instance))]] | transducers
      elif $pgn == 130314 then if $f.Source == "Atmospheric" then [$f.Pressure | pressure] | transducers else empty end
      elif $pgn == 130316 then temperature($f.Source; $f.Instance; $f.Temperature)
      else empty end;

# PGNs of which only one sender counts, and the others that give sentences.
def alone: {"129025": true, "129026": true, "129029": true, "127250": true, "127258": true, "128259": true, "128267": true, "130306": true,
    "129283": true, "127257": true};
def many: {"127245": false, "127488": false, "127489": false, "127505": false, "127508": false, "130310": false, "130311": false,
    "130312": false, "130313": false, "130314": false, "130316": false};

spread as $spread | (alone + many) as $wanted
| foreach lines as $m ({from: {}};
      ($m.pgn | tostring) as $pgn
      | if $wanted[$pgn] == null then .says = false else
            ($m.timestamp | iso) as $stamp
            | (if .text == $stamp[:19] then . else .text = $stamp[:19] | .second = ($stamp | seconds) end)
            | .iso = (if .second then $stamp else null end)
            | .from[$pgn] as $from
            | .says = ($wanted[$pgn] == false or $from == null or $from[0] == $m.src or (.second != null and .second - $from[1] > 10))
            | if .says and $wanted[$pgn] then
                  .from[$pgn] = [$m.src, .second // 0] | learnt($m)
                  | if $m.pgn == 129025 then .is_due = (.second == null or .second != .told) | .told = .second else . end
              else . end
        end;
      if .says then said($m) | select(length < 77 and (test("[^ -~]") | not)) | sentence($spread) else empty end)
