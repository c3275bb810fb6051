"""The sums of a trip: miles, hours, litres, ampere hours, the strongest wind and the least depth.

A value counts until the next message of its source, for at most GAP seconds: nothing is counted over a gap. The source of
a sum is the first device that sends it; another one takes its place after GAP seconds without it.

- Over ground: the way between positions; a position counts if it is STEP metres from the last that counted, or ends a stretch. A
  minute of arc is a nautical mile.
- Through the water: what the counter of the log (128275) rises by, or else the speed through the water (128259) over time.
- Under way: the time in which the speed over ground, or else that through the water, is a knot or more.
- Engines: the time in which the speed (127488) is over 0, or else what the counter of hours (127489) rises by; the fuel rate over time, or
  else what the counter of litres (127497) rises by.
- Batteries: the current (127508) over time, charge and discharge apart.
"""
import math

GAP = 60.0  # seconds
STEP = 20.0  # metres
MILE, KNOT = 1852.0, 1852 / 3600
MOST_GAPS, MOST_THINGS = 1000, 100
ENGINES = {"Single Engine or Dual Engine Port": "port or single", "Dual Engine Starboard": "starboard"}
SENT = {127488, 127489, 127497, 127508, 128259, 128267, 128275, 129025, 129026, 129029, 130306}


def amount(value):
    """The number that a field shows, or None."""
    try:
        shown = float(value)
    except (TypeError, ValueError, OverflowError):
        return None
    return shown if math.isfinite(shown) else None


class Source:
    """Which device a sum is of."""

    def __init__(self):
        self.of = self.at = None
        self.first = None

    def takes(self, of, at):
        if self.of is None or of == self.of or at - self.at > GAP:
            self.first = of if self.first is None else self.first
            self.of, self.at = of, at
            return True
        return False


class Over(Source):
    """A value over time: its sums above and below 0, the time above a limit, and the time with a value."""

    def __init__(self, limit=0.0):
        super().__init__()
        self.limit, self.last = limit, None
        self.plus = self.minus = self.above = self.seconds = 0.0

    def add(self, of, at, value):
        before = self.at
        if not self.takes(of, at):
            return
        if self.last is not None and value is not None and 0 <= at - before <= GAP:
            took = at - before
            self.seconds += took
            if self.last >= 0:
                self.plus += self.last * took
            else:
                self.minus -= self.last * took
            if self.last >= self.limit and self.last > 0:
                self.above += took
        self.last = value


class Counter(Source):
    """The rise of a counter, without gaps and restarts."""

    def __init__(self):
        super().__init__()
        self.last, self.sum = None, 0.0

    def add(self, of, at, value):
        before, was = self.at, self.of
        if value is None or not self.takes(of, at):
            return
        if self.last is not None and was == of and 0 <= at - before <= GAP and value >= self.last:
            self.sum += value - self.last
        self.last = value


def miles(one, other):
    """The way between two places: an arc of a great circle, a minute of which is a mile."""
    (_, a, b), (_, c, d) = one, other
    a, b, c, d = map(math.radians, (a, b, c, d))
    root = math.sin((c - a) / 2) ** 2 + math.cos(a) * math.cos(c) * math.sin((d - b) / 2) ** 2
    return 60 * math.degrees(2 * math.asin(min(1.0, math.sqrt(root))))


class Way(Source):
    """Positions: the first and the last, and the miles between."""

    def __init__(self):
        super().__init__()
        self.begin = self.end = self.counted = None
        self.sum = 0.0

    def add(self, of, at, latitude, longitude):
        before = self.at
        if latitude is None or longitude is None or abs(latitude) > 90 or abs(longitude) > 180 or not self.takes(of, at):
            return
        point = at, latitude, longitude
        if self.begin is None:
            self.begin = self.counted = point
        elif not 0 <= at - before <= GAP:
            self.sum += miles(self.counted, self.end)
            self.counted = point
        else:
            way = miles(self.counted, point)
            if way * MILE >= STEP:
                self.sum += way
                self.counted = point
        self.end = point

    @property
    def miles(self):
        return self.sum + (miles(self.counted, self.end) if self.end else 0.0)

    def place(self, at):
        """The last place, unless it is old."""
        return self.end[1:] if self.end and 0 <= at - self.end[0] <= GAP else None


class Trip:
    """The sums, message by message."""

    def __init__(self):
        self.begin = self.end = None
        self.gaps, self.more_gaps = [], 0
        self.way, self.log, self.water, self.ground = Way(), Counter(), Over(KNOT), Over(KNOT)
        self.speeds, self.hours, self.rates, self.litres, self.batteries, self.volts = {}, {}, {}, {}, {}, {}
        self.wind, self.depth = {}, None

    def thing(self, things, name, make):
        """The sums of an engine or battery; if there are too many, sums that are not kept."""
        it = things.get(name)
        if it is None:
            it = make()
            if len(things) < MOST_THINGS:
                things[name] = it
        return it

    def message(self, at, sender, pgn, fields):
        if self.end is None:
            self.begin = at
        elif at - self.end > GAP or at < self.end - 1:
            if len(self.gaps) < MOST_GAPS:
                self.gaps.append((self.end, at))
            else:
                self.more_gaps += 1
        if self.end is None or at > self.end or at < self.end - 1:
            self.end = at
        if pgn not in SENT:
            return
        get = fields.get
        if pgn in (129025, 129029):
            self.way.add((sender, pgn), at, amount(get("Latitude")), amount(get("Longitude")))
        elif pgn == 129026:
            self.ground.add(sender, at, amount(get("SOG")))
        elif pgn == 128259:
            self.water.add(sender, at, amount(get("Speed Water Referenced")))
        elif pgn == 128275:
            self.log.add(sender, at, amount(get("Log")))
        elif pgn == 128267:
            depth = amount(get("Depth"))
            if depth is not None and (self.depth is None or depth < self.depth[0]):
                self.depth = depth, at, self.way.place(at), sender
        elif pgn == 130306:
            speed, reference = amount(get("Wind Speed")), str(get("Reference") or "no reference")
            had = self.wind.get(reference)
            if speed is not None and (had is None and len(self.wind) < MOST_THINGS or had and speed > had[0]):
                self.wind[reference] = speed, at, self.way.place(at), sender
        else:
            # A device may omit the instance of its only engine or battery.
            name = str(get("Instance", ""))
            if pgn == 127488:
                self.thing(self.speeds, name, Over).add(sender, at, amount(get("Speed")))
            elif pgn == 127489:
                self.thing(self.rates, name, Over).add(sender, at, amount(get("Fuel Rate")))
                self.thing(self.hours, name, Counter).add(sender, at, amount(get("Total Engine hours")))
            elif pgn == 127497:
                self.thing(self.litres, name, Counter).add(sender, at, amount(get("Trip Fuel Used")))
            elif pgn == 127508:
                volts = amount(get("Voltage"))
                self.thing(self.batteries, name, Over).add(sender, at, amount(get("Current")))
                if volts is not None:
                    had = self.volts.get(name, (volts, volts))
                    if name in self.batteries:
                        self.volts[name] = min(had[0], volts), max(had[1], volts)

    # -- Results.

    def sums(self):
        """All sums, for programs: miles, seconds, litres, ampere hours, m/s, m."""
        water = None
        if self.log.last is not None:
            water = {"miles": round(self.log.sum / MILE, 4), "by": "log", "from": self.log.first}
        elif self.water.seconds:
            water = {"miles": round(self.water.plus / MILE, 4), "by": "speed", "from": self.water.first}
        under = self.ground if self.ground.seconds else self.water
        engines = []
        for name in sorted({*self.speeds, *self.rates, *self.litres}):
            speed, rate, hours, litres = (it.get(name) for it in (self.speeds, self.rates, self.hours, self.litres))
            running = speed.above if speed and speed.seconds else hours.sum if hours and hours.last is not None else None
            used = rate.plus / 3600 if rate and rate.seconds else litres.sum if litres and litres.last is not None else None
            engines.append({"engine": name, "seconds": None if running is None else round(running, 3), "litres": None if used is None else round(used, 4)})
        return {"from": self.begin, "to": self.end, "gaps": self.gaps, "more_gaps": self.more_gaps,
                "start": self.way.begin, "finish": self.way.end, "ground": {"miles": round(self.way.miles, 4), "from": self.way.first[0]} if self.way.end else None,
                "water": water, "under_way": round(under.above, 3) if under.seconds else None, "measured": round(under.seconds, 3), "engines": engines,
                "batteries": [{"battery": name, "charged": round(it.plus / 3600, 4), "discharged": round(it.minus / 3600, 4), "measured": round(it.seconds, 3),
                               "volts": self.volts.get(name)} for name, it in sorted(self.batteries.items())],
                "wind": {reference: list(it) for reference, it in sorted(self.wind.items())}, "depth": self.depth and list(self.depth)}

    def rows(self, page, speed=KNOT):
        """All sums in words: names and values, with numbers as in the recipe `page`."""
        it, rows = self.sums(), []
        if it["from"] is None:
            return rows

        def when(at):
            return page.when(at, it["from"], it["to"])

        def at_place(at, place):
            return f"at {when(at)}" + (f", {page.place(*place)}" if place else "")
        for name, end in (("From", "start"), ("To", "finish")):
            at = it[end] or (it["from" if end == "start" else "to"],)
            rows.append((name, page.clock(at[0], "%Y-%m-%d %H:%M:%S") + (f", {page.place(*at[1:])}" if it[end] else "")))
        if it["ground"]:
            rows.append(("Over ground", f"{page.fixed(it['ground']['miles'], 2)} nm"))
        if it["water"]:
            rows.append(("Through water", f"{page.fixed(it['water']['miles'], 2)} nm" + (" by its speed" if it["water"]["by"] == "speed" else "")))
        if it["under_way"] is not None:
            rows.append(("Under way", f"{page.span(it['under_way'])} of {page.span(it['measured'])}"))
        for one in it["engines"]:
            told = [f"{page.span(one['seconds'])} running" if one["seconds"] is not None else "", f"{page.fixed(one['litres'], 1)} L" if one["litres"] is not None else ""]
            name = ENGINES.get(one["engine"], one["engine"])
            rows.append((f"Engine {name}".rstrip(), ", ".join(part for part in told if part) or "no hours, no litres"))
        for one in it["batteries"]:
            volts = f", {one['volts'][0]:.2f} to {one['volts'][1]:.2f} V" if one["volts"] else ""
            rows.append((f"Battery {one['battery']}".rstrip(), f"{page.fixed(one['charged'], 1)} Ah charged, {page.fixed(one['discharged'], 1)} Ah discharged{volts}"))
        for reference, (value, at, place, _) in it["wind"].items():
            told = f"{page.fixed(value / speed, 1)} {'knots' if speed != 1 else 'm/s'}"
            rows.append((f"Strongest wind, {reference.lower()}", f"{told} {at_place(at, place)}"))
        if it["depth"]:
            value, at, place, _ = it["depth"]
            rows.append(("Least depth", f"{page.fixed(value, 2)} m below the transducer {at_place(at, place)}"))
        for begin, end in it["gaps"][:5]:
            told = f"{page.span(end - begin)}, not counted" if end > begin else "the clock was set back"
            rows.append(("Gap in the log", f"{when(begin)} to {when(end)} ({told})"))
        more = len(it["gaps"]) + it["more_gaps"] - 5
        if more > 0:
            rows.append(("Gaps in the log", f"{more:,} more"))
        return rows
