# Prints JSON lines as Signal K deltas of this boat, with Signal K's paths and units: jq -jcf signalk.jq
#
# Position, COG, SOG, heading, rate of turn, attitude, speed, log, depth, wind, current, rudder, autopilot, next point, engine
# with its alarms, gear, battery, switches, tank, temperature, humidity, pressure and date; other messages, and AIS targets, give
# nothing. Engine 0 is `port`, 1 is `starboard`. An alarm of an engine is sent when it is set, and when it is over.
# Wind whose reference is the boat or the water is angleTrueWater and speedTrue, as in Signal K's own reader.
# Numbers are those of the line, except rpm (Hz), percent (ratio), litres (m3) and wind angles (from -pi to pi). A timestamp
# that is not a time is left out: Signal K then uses the time at which it receives the delta.
include "n2k" {search: "./"};

# No value is false, so only null counts as false here and below: a test by `==` is a call, which is slow in jq.
def at($path; $value): if $path and $value then {path: $path, value: $value} else empty end;
def ratio: if type == "number" then . * 10000 | round / 1000000 else null end;
def pi: 3.141592653589793;
def signed: if . and . > pi then (. - 2 * pi) * 10000 | round / 10000 else . end;
def by_reference($reference; $true; $magnetic):
    if $reference == "True" then $true elif $reference == "Magnetic" then $magnetic else null end;
def engine:
    if . == null or . == "Single Engine or Dual Engine Port" or . == 0 then "propulsion.port"
    elif . == "Dual Engine Starboard" or . == 1 then "propulsion.starboard" else "propulsion.\(.)" end;
def tanks: {
    "Fuel": "fuel", "Water": "freshWater", "Gray water": "wasteWater", "Live well": "liveWell", "Oil": "lubrication",
    "Black water": "blackWater"};
def temperatures: {
    "Sea Temperature": "environment.water.temperature", "Outside Temperature": "environment.outside.temperature",
    "Inside Temperature": "environment.inside.temperature",
    "Engine Room Temperature": "environment.inside.engineRoom.temperature",
    "Main Cabin Temperature": "environment.inside.mainCabin.temperature",
    "Refrigeration Temperature": "environment.inside.refrigerator.temperature",
    "Freezer Temperature": "environment.inside.freezer.temperature",
    "Heating System Temperature": "environment.inside.heating.temperature",
    "Dew Point Temperature": "environment.outside.dewPointTemperature",
    "Apparent Wind Chill Temperature": "environment.outside.apparentWindChillTemperature",
    "Theoretical Wind Chill Temperature": "environment.outside.theoreticalWindChillTemperature",
    "Heat Index Temperature": "environment.outside.heatIndexTemperature"};
def temperature($source; $instance; $value):
    at(if $source == "Exhaust Gas Temperature" then ($instance | engine) + ".exhaustTemperature" else temperatures[$source | tostring] end; $value);
def humidity($source; $value):
    at({"Inside": "environment.inside.relativeHumidity", "Outside": "environment.outside.relativeHumidity"}[$source | tostring]; $value | ratio);
def place: if .Latitude and .Longitude then {latitude: .Latitude, longitude: .Longitude} else null end;
# Alarms are flags with a name.
def notified($engine; $state; $method):
    {path: "notifications.\($engine).\(camel)", value: {state: $state, method: $method, message: .}};
def moment:
    if .Date and .Time then (.Date * 86400000 + (.Time * 1000 | round)) as $ms
        | ($ms / 1000 | floor | todate | rtrimstr("Z")) + ".\("00\($ms % 1000)"[-3:])Z" else null end;
def switches:
    "electrical.switches.bank.\(.Instance // 0)" as $bank
    | to_entries[] | select(.key | startswith("Indicator"))
    | at("\($bank).\(.key | ltrimstr("Indicator")).state"; {"On": 1, "Off": 0}[.value | tostring]);
def next_point:
    ("navigation.course" + if ."Calculation Type" == "Great Circle" then "GreatCircle" else "Rhumbline" end) as $course
    | ."Course/Bearing reference" as $reference
    | at($course + ".nextPoint.distance"; ."Distance to Waypoint"),
      at(by_reference($reference; $course + ".bearingTrackTrue"; $course + ".bearingTrackMagnetic"); ."Bearing, Origin to Destination Waypoint"),
      at(by_reference($reference; $course + ".nextPoint.bearingTrue"; $course + ".nextPoint.bearingMagnetic"); ."Bearing, Position to Destination Waypoint"),
      at($course + ".nextPoint.velocityMadeGood"; ."Waypoint Closing Velocity"),
      at($course + ".nextPoint.position"; {Latitude: ."Destination Latitude", Longitude: ."Destination Longitude"} | place);
def current:
    (if .Drift and .Set then by_reference(."Set Reference"; {setTrue: .Set}; {setMagnetic: .Set}) else null end) as $set
    | at("environment.current"; if $set then $set + {drift: .Drift} else null end);
# The states of Raymarine's autopilots, by Seatalk NG and by Seatalk 1.
def pilots: {
    "Standby": "standby", "Auto": "auto", "Auto, compass commanded": "auto", "Wind": "wind", "Vane, Wind Mode": "wind", "Track": "route",
    "Track Mode": "route", "No Drift, COG referenced (In track, course changes)": "route"};

def wind:
    (."Wind Angle" | signed) as $angle
    | if .Reference == "Apparent" then
          at("environment.wind.speedApparent"; ."Wind Speed"), at("environment.wind.angleApparent"; $angle)
      elif .Reference == "True (boat referenced)" or .Reference == "True (water referenced)" then
          at("environment.wind.speedTrue"; ."Wind Speed"), at("environment.wind.angleTrueWater"; $angle)
      elif .Reference == "True (ground referenced to North)" then
          at("environment.wind.speedOverGround"; ."Wind Speed"), at("environment.wind.directionTrue"; ."Wind Angle")
      elif .Reference == "Magnetic (ground referenced to Magnetic North)" then
          at("environment.wind.speedOverGround"; ."Wind Speed"), at("environment.wind.directionMagnetic"; ."Wind Angle")
      else empty end;

# The offset is the distance from the transducer to the waterline (above 0) or to the keel (below 0).
def depth:
    (if .Depth and .Offset then (.Depth + .Offset) * 1000 | round / 1000 else null end) as $sum
    | at("environment.depth.belowTransducer"; .Depth),
      if (.Offset // 0) == 0 then empty
      elif .Offset > 0 then at("environment.depth.surfaceToTransducer"; .Offset), at("environment.depth.belowSurface"; $sum)
      else at("environment.depth.transducerToKeel"; -.Offset), at("environment.depth.belowKeel"; $sum) end;

def engine_values:
    (.Instance | engine) as $engine
    | at($engine + ".oilPressure"; ."Oil pressure"), at($engine + ".oilTemperature"; ."Oil temperature"),
      at($engine + ".temperature"; .Temperature), at($engine + ".alternatorVoltage"; ."Alternator Potential"),
      at($engine + ".fuel.rate"; ."Fuel Rate" | if . then . / 3600000 else . end),
      at($engine + ".runTime"; ."Total Engine hours"), at($engine + ".coolantPressure"; ."Coolant Pressure"),
      at($engine + ".fuel.pressure"; ."Fuel Pressure"), at($engine + ".engineLoad"; ."Engine Load" | ratio),
      at($engine + ".engineTorque"; ."Engine Torque" | ratio);
def gear:
    ((.Instance | engine) + ".transmission") as $gear
    | at($gear + ".gear"; ."Transmission Gear"), at($gear + ".oilPressure"; ."Oil pressure"),
      at($gear + ".oilTemperature"; ."Oil temperature");
def battery:
    "electrical.batteries.\(.Instance // 0)" as $battery
    | at($battery + ".voltage"; .Voltage), at($battery + ".current"; .Current), at($battery + ".temperature"; .Temperature);
def charge:
    if ."DC Type" == "Battery" then
        "electrical.batteries.\(.Instance // 0).capacity" as $capacity
        | at($capacity + ".stateOfCharge"; ."State of Charge" | ratio), at($capacity + ".stateOfHealth"; ."State of Health" | ratio),
          at($capacity + ".timeRemaining"; ."Time Remaining")
    else empty end;
def tank:
    tanks[.Type | tostring] as $tank
    | if $tank then
          "tanks.\($tank).\(.Instance // 0)" as $tank
          | at($tank + ".currentLevel"; .Level | ratio), at($tank + ".capacity"; .Capacity | if . then . / 1000 else . end)
      else empty end;

# The values of a message, from its PGN and its fields. The PGNs are in four groups, so that few are compared.
def values_of($pgn):
    if $pgn < 127000 then
        if $pgn == 126992 then at("navigation.datetime"; moment)
        elif $pgn == 126720 or $pgn == 65379 then at("steering.autopilot.state"; pilots[."Pilot Mode" | tostring])
        elif $pgn == 65345 then at("steering.autopilot.target.windAngleApparent"; ."Wind Datum" | signed)
        elif $pgn == 65359 then at("navigation.headingTrue"; ."Heading True"), at("navigation.headingMagnetic"; ."Heading Magnetic")
        elif $pgn == 65360 then
            at("steering.autopilot.target.headingTrue"; ."Target Heading True"),
            at("steering.autopilot.target.headingMagnetic"; ."Target Heading Magnetic")
        else empty end
    elif $pgn < 128000 then
        if $pgn == 127245 then if (.Instance // 0) == 0 then at("steering.rudderAngle"; .Position) else empty end
        elif $pgn == 127250 then
            at(by_reference(.Reference; "navigation.headingTrue"; "navigation.headingMagnetic"); .Heading),
            at("navigation.magneticVariation"; .Variation), at("navigation.magneticDeviation"; .Deviation)
        elif $pgn == 127237 then
            at(by_reference(."Heading Reference"; "steering.autopilot.target.headingTrue"; "steering.autopilot.target.headingMagnetic");
               ."Heading-To-Steer (Course)")
        elif $pgn == 127251 then at("navigation.rateOfTurn"; .Rate)
        elif $pgn == 127257 then
            if .Roll and .Pitch then at("navigation.attitude"; {roll: .Roll, pitch: .Pitch, yaw: .Yaw}) else empty end
        elif $pgn == 127258 then at("navigation.magneticVariation"; .Variation)
        elif $pgn == 127488 then
            (.Instance | engine) as $engine
            | at($engine + ".revolutions"; .Speed | if . then . / 60 else . end), at($engine + ".boostPressure"; ."Boost Pressure")
        elif $pgn == 127489 then engine_values
        elif $pgn == 127493 then gear
        elif $pgn == 127501 then switches
        elif $pgn == 127505 then tank
        elif $pgn == 127506 then charge
        elif $pgn == 127508 then battery
        else empty end
    elif $pgn < 130000 then
        if $pgn == 129025 or $pgn == 129029 then at("navigation.position"; place)
        elif $pgn == 129026 then
            at(by_reference(."COG Reference"; "navigation.courseOverGroundTrue"; "navigation.courseOverGroundMagnetic"); .COG),
            at("navigation.speedOverGround"; .SOG)
        elif $pgn == 128267 then depth
        elif $pgn == 128259 then at("navigation.speedThroughWater"; ."Speed Water Referenced")
        elif $pgn == 128275 then at("navigation.log"; .Log), at("navigation.trip.log"; ."Trip Log")
        elif $pgn == 129283 then at("navigation.courseRhumbline.crossTrackError"; .XTE)
        elif $pgn == 129284 then next_point
        elif $pgn == 129291 then current
        else empty end
    else
        if $pgn == 130306 then wind
        elif $pgn == 130310 then
            at("environment.water.temperature"; ."Water Temperature"),
            at("environment.outside.temperature"; ."Outside Ambient Air Temperature"),
            at("environment.outside.pressure"; ."Atmospheric Pressure")
        elif $pgn == 130311 then
            temperature(."Temperature Source"; null; .Temperature), humidity(."Humidity Source"; .Humidity),
            at("environment.outside.pressure"; ."Atmospheric Pressure")
        elif $pgn == 130312 then temperature(.Source; .Instance; ."Actual Temperature")
        elif $pgn == 130313 then humidity(.Source; ."Actual Humidity")
        elif $pgn == 130314 then if .Source == "Atmospheric" then at("environment.outside.pressure"; .Pressure) else empty end
        elif $pgn == 130316 then temperature(.Source; .Instance; .Temperature)
        else empty end
    end;

# The state: a timestamp up to its second, and the same as ISO text (null if invalid), so that each second is converted
# once; what is set on each engine; and what the last message changed.
foreach lines as $m ({set: {}};
    ($m.timestamp / ".")[0] as $text
    | if .text == $text then . else
          .text = $text | .second = ($m.timestamp | iso | if seconds then (. / ".")[0] | rtrimstr("Z") else null end)
      end
    | if .changed then .changed = null else . end
    | if $m.pgn == 127489 then
          ($m.fields.Instance | engine) as $engine
          | reduce ("Discrete Status 1", "Discrete Status 2") as $word (.;
              if $m.fields[$word] | type == "array" then
                  [$m.fields[$word][] | strings] as $now | (.set[$engine][$word] // []) as $was | .set[$engine][$word] = $now
                  | .changed += [($now - $was)[] | notified($engine; "alarm"; ["visual", "sound"])] + [($was - $now)[] | notified($engine; "normal"; [])]
              else . end)
      else . end;
    . as $stamp | [($m.fields | values_of($m.pgn)), (.changed // empty | .[])] as $values
    | if $values[0] then
          "{\"context\":\"vessels.self\",\"updates\":[{\"$source\":\"n2kdec.", $m.src,
          "\",\"source\":{\"label\":\"n2kdec\",\"type\":\"NMEA2000\",\"src\":\"", $m.src, "\",\"pgn\":", $m.pgn,
          if $stamp.second then
              "},\"timestamp\":\"" + $stamp.second + ($m.timestamp | ltrimstr($stamp.text) | rtrimstr("Z")) + "Z\",\"values\":"
          else "},\"values\":" end,
          $values, "}]}\n"
      else empty end)
