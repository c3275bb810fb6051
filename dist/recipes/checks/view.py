"""The view of `n2k --live` that says which device fails."""
import time

from checks.facts import RATE, WINDOW
from checks.findings import Findings
from checks.text import many, share, wrapped
from screen.views import View, fits

EVERY = 2.0  # seconds between judgements; at least twenty times the duration of one


class Health(View):
    """The findings, the most harmful first; then each device with its losses."""

    name = "Health"
    nothing = "No line with a time has come yet."

    def __init__(self, facts):
        super().__init__()
        self.facts, self.of, self.again, self.found = facts, None, 0.0, []

    def judged(self, bus):
        """The findings and devices in words, each with a style. In a paused picture they are those of its first moment."""
        began = time.monotonic()
        if bus is not self.of or not bus.is_held and began > self.again:
            findings = Findings(self.facts)
            self.of, self.found = bus, []
            if self.facts.begin is not None:
                self.found += [(f"{place}.", it["text"], "alarm") for place, it in enumerate(findings.found, 1)] or [("", "Nothing to look at so far.", "plain")]
                self.found.append(("", self.bus_of(self.facts), "plain"))
                self.found += [("", self.lost(findings, it), "plain") for sender, it in sorted(self.facts.devices.items()) if sender < 254]
            self.again = began + max(EVERY, 20 * (time.monotonic() - began))
        return self.found

    @staticmethod
    def bus_of(facts):
        mean, most = facts.bits / RATE / facts.recorded_so_far if facts.recorded_so_far else 0.0, facts.most[0] / RATE / WINDOW
        load = f"load {share(mean)} on average, {share(most)} at most in {WINDOW} s; " if facts.has_frames else ""
        return f"Bus: {load}{many(facts.errors, 'error frame')}, {many(len(facts.holes), 'hole')}"

    @staticmethod
    def lost(findings, device):
        loss, restarts = findings.losses[device.sender], findings.restarted.get(device.sender, ())
        told = [many(device.frames, "frame") if findings.facts.has_frames else many(device.messages, "message")]
        if loss.lost:
            told.append(f"{loss.broken:,} broken, {loss.skipped:,} missing ({share(loss.share)})")
        if restarts:
            told.append(many(len(restarts), "restart"))
        return f"{findings.label(device.sender)}: {', '.join(told)}"

    def rows(self, bus, now, width, words):
        rows = []
        for number, text, style in self.judged(bus):
            if not words or fits(text, words):
                for at, line in enumerate(wrapped(text, width - 5)):
                    rows.append([(0, number if at == 0 else "", "title"), (4, line, style)])
        return rows
