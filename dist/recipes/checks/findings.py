"""Findings in the facts, each a sentence, ordered by harm."""
import math

from screen import page
from checks.facts import PAUSE, RATE, WINDOW, rounded
from checks.text import lasts, many, seldom, share, text_of

# The limits from which on there is a finding.
LEAST_LOST, LEAST_SHARE = 3, 0.001  # fast packets of a device
LEAST_MISSED, LEAST_MISSED_SHARE = 5, 0.01  # messages of one frame
OVERLOAD = 0.8  # of the bus, in a window
QUIET = 5.0  # seconds without a frame
CLOCK = 5.0  # seconds by which a clock may be off
LEAST_BAD, LEAST_BAD_SHARE = 10, 0.001  # lines
WEEKS = 1024 * 7 * 86400  # seconds after which a GPS's week number repeats
YEAR_2000 = 946684800
# From most to least harmful.
HARM = ["no power", "bus off", "no acknowledgement", "overload", "recording loses", "gone", "two names", "double name", "no address", "loss", "silence",
        "restart", "moved", "errors", "instance", "missed", "stopped", "paused", "device clock", "log clock", "clock jump", "set back", "hole", "bad", "no clock"]


def turns(lengths, count):
    """The seconds in which a few gaps take turns, for a minute at least: each has a tenth of all, and together they have nine tenths; or None."""
    kinds = []
    for length, often in sorted(lengths.items()):
        if kinds and length <= 1.3 * kinds[-1][0] + 20:
            kinds[-1][1] += often
            kinds[-1][2] += often * length
        else:
            kinds.append([length, often, often * length])
    kinds = [it for it in kinds if 10 * it[1] >= count]
    most, all_of_them = sum(it[1] for it in kinds), sum(it[2] for it in kinds)
    return rounded(all_of_them / min(it[1] for it in kinds) / 1000) / 1000 if 10 * most >= 9 * count and all_of_them >= 60000 else None


class Judged:
    """A flow by its gaps: whether they are regular, and how many messages are missing then.

    It is regular if it has 20 gaps or more, half of them are the usual one (within a fifth of it), and nine tenths are that or a
    multiple: what loses messages has multiples, what sends by events has not. It has a period if it is regular, or if its gaps are a few
    that take turns, as of a device that sends two tanks in turn. What is sent in bursts has neither: it is silent nine tenths of the time."""

    def __init__(self, flow):
        self.flow, self.usual = flow, flow.gaps.usual()
        self.is_regular, self.missed, self.period = False, 0, None
        count = sum(flow.gaps.lengths.values())
        if count < 20 or not self.usual:
            return
        limit = max(5.0, 10 * self.usual)
        ones = multiples = missed = 0
        for length, often in flow.gaps.lengths.items():
            times = max(1, round(length / 1000 / self.usual))
            if abs(length / 1000 - times * self.usual) <= 0.2 * self.usual:
                multiples += often
                if times == 1:
                    ones += often
                elif length / 1000 <= limit:
                    missed += (times - 1) * often
        is_even = 2 * ones >= count and 10 * multiples >= 9 * count
        self.period = self.usual if is_even else turns(flow.gaps.lengths, count)
        self.limit = max(5.0, 10 * self.period) if self.period else math.inf
        if 10 * sum(length * often for length, often in flow.gaps.lengths.items() if length <= 1000 * self.limit) < sum(
                length * often for length, often in flow.gaps.lengths.items()):
            self.period, self.limit = None, math.inf
        self.is_regular = is_even and self.period is not None
        self.missed = missed if self.is_regular else 0


def within(begin, end, times):
    """Whether more than half of an interval is within one of these."""
    return any(min(end, to) - max(begin, since) > 0.5 * (end - begin) for since, to in times)


class Loss:
    """The fast packets that a device lost: broken ones, and those that steps of its sequence numbers show. Which numbers a device
    counts, those of each PGN or of all together, its steps say: the way that has more steps of 1, half of all at least. A message of
    a regular flow is missing only if its time was skipped too; for the others eight steps of ten have to be 1. A step over a silence
    says nothing, the device may have been off."""

    def __init__(self, device, judged):
        flows = [it.flow for it in judged if it.flow.kind == "fast" or it.flow.broken]
        judged = {it.flow.pgn: it for it in judged}
        self.complete, self.broken = sum(it.messages for it in flows), sum(it.broken for it in flows)
        self.times = [at for it in flows for at in it.lost]
        ways = []
        for way in (flows, [device]):
            ones, steps = sum(it.steps[1, 0] for it in way), sum(sum(it.steps.values()) for it in way)
            ways.append((ones / steps if steps >= 10 else 0.0, way))
        best, way = max(ways, key=lambda it: it[0])
        self.counts, self.skipped = "" if best < 0.5 else "each PGN" if way is flows else "all PGNs", 0
        for it in way if self.counts else ():
            its = judged.get(getattr(it, "pgn", None))
            is_regular = its is not None and its.is_regular
            skipped = sum((by - 1) * often for (by, gap), often in it.steps.items()
                          if by > 1 and (1500 * its.usual <= gap <= 1000 * its.limit if is_regular else best >= 0.8 and gap <= 5000))
            self.skipped += skipped
            if skipped:
                self.times += it.jumps

    @property
    def lost(self):
        return self.broken + self.skipped

    @property
    def share(self):
        return self.lost / (self.lost + self.complete) if self.lost else 0.0

    @property
    def is_found(self):
        return self.lost >= LEAST_LOST and self.share >= LEAST_SHARE


class Findings:
    """All findings: `found` has a dictionary of each, the most harmful first."""

    def __init__(self, facts):
        self.facts, self.found = facts, []
        self.judged = {key: Judged(flow) for key, flow in facts.flows.items()}
        self.of = {sender: [] for sender in facts.devices}
        for (sender, _), it in self.judged.items():
            self.of.setdefault(sender, []).append(it)
        self.losses = {sender: Loss(it, self.of[sender]) for sender, it in facts.devices.items()}
        self.moved, self.silences = set(), {}
        # The silences of the whole bus, which are not a device's.
        self.quiets = [(end - length, end) for length, end in facts.quiet.longest if length >= PAUSE]
        if facts.begin is not None:
            self.names()
            self.restarts()
            self.device_silences()
            self.flow_silences()
            self.lost()
            self.instances()
            self.bus()
            self.clocks()
            self.log()
        self.found.sort(key=lambda it: (HARM.index(it["kind"]), -it["weight"], it["from"] or 0))

    # -- Words.

    def when(self, at):
        return page.when(at, self.facts.begin, self.facts.at or at)

    def label(self, sender):
        """The name of a device, with its address."""
        name = self.name(sender)
        return f"{name} ({sender})" if name else f"Device {sender}"

    def name(self, sender):
        device = self.facts.devices.get(sender)
        if device is None:
            return ""
        model = page.model(device.product, device.installed)
        told = [model] if model else [device.claim.get("Manufacturer Code"), device.claim.get("Device Function")]
        return text_of(" ".join(str(it) for it in told if it is not None))

    def title(self, flow):
        return f"{text_of(flow.description)} ({flow.pgn})" if flow.description else f"PGN {flow.pgn}"

    def span(self, begin, end):
        """From when to when, or "on" if it lasts until about the end."""
        if begin == end:
            return f"at {self.when(begin)}"
        goes_on = self.facts.at - end <= max(60.0, 0.1 * (self.facts.at - begin))
        return f"from {self.when(begin)} on" if goes_on else f"from {self.when(begin)} to {self.when(end)}"

    def add(self, kind, text, device=None, weight=0.0, begin=None, end=None, **numbers):
        self.found.append({"kind": kind, "text": text, "device": device, "name": self.name(device) if device is not None else None,
                           "from": begin, "to": end, "weight": weight, **numbers})

    # -- Names and addresses.

    def names(self):
        facts = self.facts
        latest = {name: max(places, key=lambda it: places[it][1]) for name, places in facts.names.items()}
        for name, places in facts.names.items():
            ordered = sorted((it for it in places if it < 254), key=lambda it: places[it][0])
            told = dict(name)
            told = text_of(f"{told.get('Manufacturer Code', 'a maker')} {told.get('Unique Number', '')}")
            if 254 in places:
                self.add("no address", f"The device with NAME {told} found no free address at {self.when(places[254][0])}: it claims 254 and is mute.",
                         ordered[-1] if ordered else 254, 1, places[254][0])
            for old, new in zip(ordered, ordered[1:]):
                was, now = facts.devices[old], facts.devices[new]
                is_mine = tuple(sorted((key, str(value)) for key, value in was.claim.items())) == name
                claimed = places[new][0]
                if is_mine and was.gaps.newest > claimed + 2 and now.gaps.newest > places[old][1] + 2:
                    self.add("double name", f"Two devices have one NAME, {told}: {self.label(old)} and {self.label(new)}. One of them has to get another.",
                             new, 1, claimed, other=old)
                else:
                    self.moved.add(old)
                    self.add("moved", f"{self.label(new)} changed its address from {old} to {new} at {self.when(claimed)}.", new, 1, claimed, other=old)
        by_address = {}
        for name, address in latest.items():
            by_address.setdefault(address, []).append(name)
        for address, names in by_address.items():
            devices = {(dict(it).get("Manufacturer Code"), dict(it).get("Unique Number")): facts.names[it][address][0] for it in names}
            if len(devices) > 1 and address < 254:
                told = " and ".join(text_of(" ".join(str(part) for part in it if part is not None)) for it in sorted(devices, key=devices.get))
                self.add("two names", f"Address {address} has {len(devices)} devices: NAMEs {told}. Neither gives way, so their messages mix.", address, len(devices),
                         max(devices.values()))

    def restarts(self):
        """Claims that were not requested, of devices that were there. If three devices or more claim at once, the bus
        was asked or had no power; a device that claims regularly does so by habit."""
        facts, alone, rounds, regular = self.facts, [], [], set()
        unasked = sorted(it for it in facts.claims if not it[2])
        by_sender = {}
        for at, sender, _, _ in unasked:
            by_sender.setdefault(sender, []).append(at)
        for sender, times in by_sender.items():
            gaps = sorted(after - before for before, after in zip(times, times[1:]))
            if len(gaps) > 2 and gaps[-1] <= 1.5 * gaps[len(gaps) // 2]:
                regular.add(sender)
        edges = [edge for hole in (*facts.holes, *facts.set_back) for edge in hole]
        for at, sender, _, was_there in unasked:
            crowd = {other for then, other, _, _ in unasked if abs(then - at) <= 2}
            if len(crowd) > 2:
                rounds.append((at, sender, was_there))
            elif was_there and sender not in regular and sender not in self.moved and not self.contends(at, sender):
                alone.append((at, sender))
        alone += [(at, sender) for at, sender in facts.restarts if sender not in regular]
        times = {}
        for at, sender in sorted(alone):
            had = times.setdefault(sender, [])
            if not had or at - had[-1] > 60:
                had.append(at)
        self.restarted = times
        for sender, had in times.items():
            if len(had) == 1:
                quiet = max((length for length, end in facts.devices[sender].gaps.longest if length >= 2 and abs(end - had[0]) <= 1), default=0)
                text = f"{self.label(sender)} restarted at {self.when(had[0])}{f', after {lasts(quiet)} of silence' if quiet else ''}."
            else:
                text = f"{self.label(sender)} restarted {len(had)} times, first at {self.when(had[0])}, last at {self.when(had[-1])}."
            self.add("restart", text, sender, len(had), had[0], had[-1], count=len(had))
        # All at once after a time without a frame: no power.
        done = -math.inf
        for at, _, was_there in rounds:
            here = [it for it in rounds if abs(it[0] - at) <= 2]
            quiet = self.quiet_before(at)
            if at - done > 4 and was_there and quiet and len({it[1] for it in here}) >= 0.6 * len([it for it in facts.devices if it < 254]):
                self.add("no power", f"All devices restarted at {self.when(at)}, after {lasts(quiet)} without a frame: the bus had no power.", None,
                         len(here), at - quiet, at)
            if was_there:
                done = max(done, at)
        self.power = [it for it in self.found if it["kind"] == "no power"]

    def contends(self, at, sender):
        """Whether another NAME claims this address within two seconds: then a claim defends it."""
        return sum(1 for places in self.facts.names.values() if sender in places and any(abs(then - at) <= 2 for then in places[sender])) > 1

    def quiet_before(self, at):
        """The seconds of a time without a frame that ended shortly before."""
        pauses = [*self.facts.holes, *((end - length, end) for length, end in self.facts.quiet.longest)]
        return max((end - begin for begin, end in pauses if end - begin >= 0.5 and -0.5 <= at - end <= 3), default=0.0)

    # -- Silence.

    def device_silences(self):
        facts = self.facts
        for sender, device in sorted(facts.devices.items()):
            usual = min((it.period for it in self.of[sender] if it.period), default=None)
            if usual is None or sender in self.moved:
                continue
            limit = max(5.0, 10 * usual)
            pauses = [(end - length, end) for length, end in device.gaps.longest if length > limit]
            count = sum(often for length, often in device.gaps.lengths.items() if length / 1000 > limit)
            since = device.gaps.newest
            # After a short silence, a restart explains more.
            has_restarted = [(begin, end) for begin, end in pauses if any(0 <= at - end <= 10 or begin <= at <= end + 1 for at in self.restarted.get(sender, ()))]
            self.silences[sender] = [*pauses, *([(since, facts.at)] if facts.at - since > limit else [])]
            if facts.at - since > limit:
                self.add("gone", f"{self.label(sender)} has been silent since {self.when(since)}, {lasts(facts.at - since)} before the log's end. Before, it "
                         f"sent every {seldom(usual)}.", sender, facts.at - since, since, None, seconds=round(facts.at - since, 3))
            pauses = [it for it in pauses if (it not in has_restarted or it[1] - it[0] > 60) and not within(*it, self.quiets)]
            if pauses:
                begin, end = max(pauses, key=lambda it: it[1] - it[0])
                count = max(len(pauses), count - len(has_restarted))
                first = min(it[0] for it in pauses)
                often = f"was silent for {lasts(end - begin)} from {self.when(begin)} on" if count == 1 else \
                    f"was silent {count} times, longest for {lasts(end - begin)} from {self.when(begin)} on"
                self.add("silence", f"{self.label(sender)} {often}. Usually it sends every {seldom(usual)}.", sender, end - begin, first, None, count=count,
                         seconds=round(end - begin, 3))

    def flow_silences(self):
        """PGNs that pause or stop while their device goes on."""
        facts, stopped, paused = self.facts, {}, {}
        for (sender, _), it in self.judged.items():
            flow, silences = it.flow, self.silences.get(sender, ())
            if not it.period or sender in self.moved:
                continue
            since = flow.gaps.newest
            if facts.at - since > it.limit and not any(begin <= since + it.limit and end == facts.at for begin, end in silences):
                stopped.setdefault(sender, []).append((since, it))
            pauses = [(length, end) for length, end in flow.gaps.longest if length > it.limit and not within(end - length, end, silences)]
            if pauses:
                paused.setdefault(sender, []).append((*max(pauses), it))
        for sender, flows in stopped.items():
            flows.sort(key=lambda one: one[0])
            since, it = flows[0]
            more = f", and {many(len(flows) - 1, 'more PGN')}" if len(flows) > 1 else ""
            self.add("stopped", f"{self.label(sender)} goes on, but has not sent {self.title(it.flow)}{more} since {self.when(since)}. Before, it sent it every "
                     f"{seldom(it.period)}.", sender, len(flows), since, None, pgn=it.flow.pgn, pgns=[one.flow.pgn for _, one in flows])
        for sender, flows in paused.items():
            length, end, it = max(flows, key=lambda one: one[0])
            more = f", and {many(len(flows) - 1, 'more PGN')} paused" if len(flows) > 1 else ""
            self.add("paused", f"{self.label(sender)} sent no {self.title(it.flow)} for {lasts(length)} from {self.when(end - length)} on, usually every "
                     f"{seldom(it.period)}{more}.", sender, length, end - length, end, pgn=it.flow.pgn, pgns=[one.flow.pgn for *_, one in flows], seconds=round(length, 3))

    # -- Loss.

    def lost(self):
        facts = self.facts
        sending = [sender for sender, it in self.losses.items() if it.complete >= 20]
        losing = [sender for sender in sending if self.losses[sender].is_found]
        # An unreadable line may have been a frame of any device.
        if facts.bad and sum(it.lost for it in self.losses.values()) <= sum(facts.bad.values()):
            return
        usual = math.inf
        if len(losing) > 2 and len(losing) >= 0.75 * len(sending):
            lost, complete = sum(self.losses[it].lost for it in losing), sum(self.losses[it].complete for it in losing)
            begin, usual = min(min(self.losses[it].times) for it in losing), sorted(self.losses[it].share for it in losing)[len(losing) // 2]
            self.add("recording loses", f"{len(losing)} of {len(sending)} devices lose fast packets, {share(lost / (lost + complete))} of all, from {self.when(begin)} on: "
                     "the recording computer loses frames (ip -s -d link show can0), or the bus is disturbed.", None, lost, begin, None, lost=lost, devices=losing)
        for sender, it in self.losses.items():
            # If most devices lose messages, only those that lose much more are named.
            if it.is_found and not it.share < 3 * usual < math.inf:
                begin, end = min(it.times), max(it.times)
                parts = [f"{it.broken:,} incomplete" if it.broken else "", f"{it.skipped:,} missing by the sequence numbers" if it.skipped else ""]
                self.add("loss", f"{self.label(sender)} loses {share(it.share)} of its fast packets, {self.span(begin, end)}: {it.lost:,} of {it.lost + it.complete:,} "
                         f"({', '.join(one for one in parts if one)}).", sender, it.share, begin, end, lost=it.lost, of=it.lost + it.complete, broken=it.broken,
                         skipped=it.skipped)
        if usual < math.inf:
            return
        for sender in facts.devices:
            mine = [it for it in self.of[sender] if it.is_regular and it.flow.kind != "fast"]
            missed, sent = sum(self.missed(it) for it in mine), sum(it.flow.gaps.count for it in mine)
            if missed >= LEAST_MISSED and missed >= LEAST_MISSED_SHARE * (missed + sent):
                worst = max(mine, key=lambda it: it.missed)
                self.add("missed", f"{self.label(sender)} misses {share(missed / (missed + sent))} of its messages of one frame, by their usual intervals: {missed:,} of "
                         f"{missed + sent:,}, {worst.missed:,} of them {self.title(worst.flow)}.", sender, missed / (missed + sent), None, None, missed=missed,
                         of=missed + sent, pgn=worst.flow.pgn)

    def missed(self, it):
        """The missing messages of a flow, except at a restart or while the whole bus was silent."""
        restarts = self.restarted.get(it.flow.sender, ())
        return it.missed - sum(max(0, round(length / it.usual) - 1) for length, end in it.flow.gaps.longest
                               if length <= it.limit and (any(end - length <= at <= end + 1 for at in restarts) or within(end - length, end, self.quiets)))

    # -- The bus.

    def instances(self):
        for (pgn, thing, description), (_, at, turns, senders) in self.facts.instances.items():
            if turns >= 3 and len(senders) > 1:
                told = " and ".join(self.label(it) for it in sorted(senders)[:4])
                self.add("instance", f"{told} both send {text_of(description)} ({pgn}) of instance {text_of(thing)}: displays mix them up. Give one another "
                         "instance." if len(senders) == 2 else f"{told} send {text_of(description)} ({pgn}) of one instance, {text_of(thing)}.",
                         min(senders), len(senders), at, None, pgn=pgn, devices=sorted(senders), instance=text_of(thing))

    def bus(self):
        facts, errors = self.facts, self.facts.kinds_of_error
        bits, begin, senders = facts.most
        if facts.has_frames and bits > OVERLOAD * RATE * WINDOW:
            sender = max(senders, key=senders.get)
            self.add("overload", f"The bus is overloaded: {share(bits / RATE / WINDOW)} in the {WINDOW} s from {self.when(begin)} on, of which {self.label(sender)} sends "
                     f"{share(senders[sender] / bits)}.", sender, bits, begin, begin + WINDOW, load=round(bits / RATE / WINDOW, 4))
        if not facts.errors:
            return
        times = facts.error_times
        told = ", ".join(f"{name} {often:,}" for name, often in errors.most_common(4))
        if errors["bus off"]:
            kind, text = "bus off", "The interface went off the bus (bus off): look for a short circuit, a wrong bit rate or missing terminators"
        elif errors["no acknowledgement"]:
            kind, text = "no acknowledgement", "Nobody acknowledged frames: the interface was alone on the bus, or is not connected to it"
        elif errors["receive overflow"]:
            kind, text = "recording loses", "The interface's buffer ran over: the recording computer loses frames"
        else:
            kind, text = "errors", "The bus has errors: look at plugs, terminators and the cable"
        self.add(kind, f"{text}. {many(facts.errors, 'error frame')} {self.span(*times)}: {told}.", None, facts.errors, *times, errors=facts.errors)

    # -- Clocks and the log.

    def clocks(self):
        facts = self.facts
        if facts.begin < YEAR_2000:
            self.add("no clock", "The log has no real clock: its times begin before the year 2000.", None, 0, facts.begin)
            return
        off = {}
        for sender, (_, least, most, last, *_) in facts.clocks.items():
            near = 0.0 if least <= 0 <= most else min(abs(least), abs(most))
            off[sender] = (near, last)
        wrong = {sender: last for sender, (near, last) in off.items() if near > CLOCK}
        if len(wrong) > 1 and len(wrong) == len(off) and max(wrong.values()) - min(wrong.values()) <= 2:
            ahead = -max(wrong.values())
            self.add("log clock", f"The log's clock is {lasts(abs(ahead))} {'ahead' if ahead > 0 else 'behind'}: {len(wrong)} devices agree on another time "
                     f"({', '.join(self.label(it) for it in sorted(wrong)[:3])}).", None, abs(ahead), facts.begin, None, seconds=round(ahead, 3))
        else:
            for sender, ahead in wrong.items():
                told = f"{self.label(sender)} says that it is {self.date(facts.begin + ahead)} when the log says {self.date(facts.begin)}"
                rolled = abs(abs(ahead) - WEEKS) < 86400
                why = ": its week number rolled over (1,024 weeks)" if rolled else "" if len(off) > len(wrong) else ": one of the two clocks is wrong"
                self.add("device clock", f"{told}{why}.", sender, abs(ahead), facts.clocks[sender][4], None, seconds=round(ahead, 3))
        edges = [edge for hole in (*facts.holes, *facts.set_back) for edge in hole]
        for sender, (*_, last) in ((sender, it) for sender, it in facts.clocks.items() if len(it) > 5):
            at, before, after = last
            if not any(abs(at - edge) <= 60 for edge in edges):
                self.add("clock jump", f"The time that {self.label(sender)} sends jumps by {lasts(abs(after - before))} {'ahead' if after > before else 'back'} at "
                         f"{self.when(at)}.", sender, abs(after - before), at, None, seconds=round(after - before, 3))

    @staticmethod
    def date(at):
        return page.clock(at, "%Y-%m-%d %H:%M:%S") if 0 <= at < 4e9 else "another time"

    def log(self):
        facts = self.facts
        for before, after in facts.set_back[:1]:
            self.add("set back", f"The log's clock was set back by {lasts(before - after)} at {self.when(before)}" +
                     (f", and {many(len(facts.set_back) - 1, 'time')} more." if len(facts.set_back) > 1 else "."), None, before - after, before, after,
                     count=len(facts.set_back))
        holes = [it for it in sorted([*facts.holes, *self.quiets]) if it[1] - it[0] >= QUIET and not any(it[0] <= one["from"] + 1 and one["to"] <= it[1] + 4 for one in self.power)]
        # A quiet bus has no holes.
        if holes and facts.frames + facts.messages >= facts.recorded:
            begin, end = max(holes, key=lambda it: it[1] - it[0])
            told = f"No frame came for {lasts(end - begin)} from {self.when(begin)} on" if len(holes) == 1 else \
                f"No frame came {len(holes)} times for {QUIET:g} s or more, longest for {lasts(end - begin)} from {self.when(begin)} on"
            self.add("hole", f"{told}: the recording paused, or the bus had no power.", None, end - begin, holes[0][0], holes[0][1], count=len(holes),
                     seconds=round(end - begin, 3))
        bad = sum(facts.bad.values())
        if bad >= LEAST_BAD and bad >= LEAST_BAD_SHARE * facts.all_lines:
            told = ", ".join(f"{cause} {often:,}" for cause, often in facts.bad.most_common(3))
            self.add("bad", f"{bad:,} of {facts.all_lines:,} lines can't be read ({told}): something else is written into the log, or it is cut.", None, bad, None, None,
                     lines=bad)
