# Functions of the recipes, which include this file. It does nothing by itself.

# The messages of a run, whether jq was called with -n or not. With -R each line is a text: a truncated line is left out, and a log
# that is not decoded is refused.
def lines:
    foreach (values, inputs) as $it ({};
        if $it | type != "string" then .message = $it
        else
            .message = ($it | try fromjson catch null | if type == "object" and .pgn and .fields then . else null end)
            | if .message or ($it | test("^\\s*$")) then .
              elif $it | test("^\\s*[{]") then .cut = (.cut // 0) + 1
              else
                  # jq 1.6 continues with the next line, if there is one.
                  (reduce inputs as $rest (null; .)) | "no messages: the input must be the output of n2kdec decode; for a log: n2k with --last, --named, --gpx or --nmea0183\n" | halt_error(3)
              end
        end;
        .message // (if .cut == 1 then "lines that are no message are left out" | stderr | empty else empty end));

# A name as an id, like canboat's -camel: only letters and digits, in lower case, with a capital at the beginning of
# each later word.
def camel:
    def in_ids: . >= 48 and . <= 57 or . >= 65 and . <= 90 or . >= 97 and . <= 122;
    explode as $signs
    | [range($signs | length) as $at | $signs[$at] | select(in_ids)
        | if $at == 0 or ($signs[$at - 1] | in_ids) then
              if . <= 90 and . >= 65 then . + 32 else . end
          elif . >= 97 then . - 32
          else . end]
    | implode;

# A timestamp as ISO text. canboat's older forms, with a dash, a space or Z between date and time, or without a final Z,
# are read as UTC. Other texts are unchanged.
def iso:
    if .[10:11] == "T" and endswith("Z") then .
    elif .[13:14] == ":" and .[16:17] == ":" and (.[11:] | contains("+") or contains("-") | not) then
        .[:10] + "T" + (.[11:] | rtrimstr("Z")) + "Z"
    else . end;

# The seconds since 1970 of an ISO text, without their fraction; null if the text is not a time.
def seconds: .[:19] + "Z" | try fromdate catch null;

# The fields that identify one of several things in a message, and the names of these things here.
def things: {
    "Instance": "instance", "Battery Instance": "instance", "Bank Instance": "instance", "Identifier": "instance",
    "Connection Number": "instance", "Windlass ID": "instance", "Source": "source", "Temperature Source": "source",
    "Type": "type", "DC Type": "type", "Reference": "reference", "COG Reference": "reference",
    "Set Reference": "reference", "User ID": "mmsi"};
