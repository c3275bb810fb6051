#!/usr/bin/env python3
"""Trials of the recipe `feed`: servers come and go, feed is killed, and the power is cut.

    feed_trials.py influx1|influx2|sqlite|influxd|ended [COUNT [SEED]]

A folder grows from a seed as n2k-logger's does: lines in chunks, days that end and are gzipped, and in some trials a
power cut, which removes the last lines of the file. Meanwhile the server is stopped and started STOPS times, and feed
is killed. In the end each point of the files, and each row, exists once; the only others are those of lines that the
cut removed.

influx1 and influx2 are stand-ins for the two interfaces of InfluxDB, which also refuse temporarily, disconnect before
and after they have stored points, and refuse large batches. influxd is the real InfluxDB 1.x on the PATH. With `ended`
no folder grows at random: feed is told to end while the server has a request and has not answered, in the middle of a
timestamp. Trials wait without a limit, so the caller sets one. The last line is `N faults`, after a line for each.
Status 77 means that the trial cannot run here; the reason is printed.
"""
import http.server
import json
import os
import random
import shutil
import socket
import sqlite3
import subprocess
import sys
import tempfile
import threading
import time
import urllib.error
import urllib.parse
import urllib.request
import gzip

ROOT = os.path.dirname(os.path.dirname(os.path.dirname(os.path.abspath(__file__))))
FEED, CONVERT = f"{ROOT}/dist/recipes/feed", f"{ROOT}/dist/recipes/convert"
STOPS, TOKEN = 20, "a token"


class Server:
    """A stand-in for a server with InfluxDB's interface, which keeps points as lines."""

    def __init__(self, chance, version):
        self.chance, self.version, self.points, self.has_database = chance, version, {}, False
        self.lock, self.running, self.port = threading.Lock(), None, free_port()

    def start(self):
        server = self

        class Handler(http.server.BaseHTTPRequestHandler):
            timeout = 20

            def log_message(self, *_):
                pass

            def respond(self, status, text=""):
                self.send_response(status)
                self.send_header("Content-Length", str(len(text)))
                self.end_headers()
                self.wfile.write(text.encode())

            def do_POST(self):
                path, _, query = self.path.partition("?")
                query = dict(urllib.parse.parse_qsl(query))
                if server.chance.random() < 0.05:
                    return self.connection.close()
                body = self.rfile.read(int(self.headers["Content-Length"] or 0))
                if path == "/query" and query["q"] == 'CREATE DATABASE "boat"':
                    server.has_database = True
                    return self.respond(200, "{}")
                if server.version == 2 and self.headers["Authorization"] != f"Token {TOKEN}":
                    return self.respond(401, "no")
                if server.version == 1 and not server.has_database:
                    return self.respond(404, '{"error":"database not found: \\"boat\\""}')
                wanted = {"db": "boat", "precision": "ns"} if server.version == 1 else {"org": "o", "bucket": "b", "precision": "ns"}
                if path != ("/write" if server.version == 1 else "/api/v2/write") or query != wanted:
                    return self.respond(400, "wrong words")
                if server.chance.random() < 0.1:
                    return self.respond(server.chance.choice([429, 500, 503]), "not now")
                if len(body) > 200_000:
                    return self.respond(413, "too large")
                if not server.store(body) or server.chance.random() < 0.05:
                    return self.connection.close()
                return self.respond(204)

        class Listener(http.server.ThreadingHTTPServer):
            # Closing waits for pending answers, so that nothing of a killed feed arrives after what the next feed
            # sends.
            allow_reuse_address, daemon_threads = True, False

            def handle_error(self, *_):
                pass

        self.running = Listener(("127.0.0.1", self.port), Handler)
        threading.Thread(target=self.running.serve_forever, args=(0.05,), daemon=True).start()

    def store(self, body):
        """Stores the points, and returns whether to send the answer."""
        with self.lock:
            for line in body.decode().splitlines():
                series, fields, stamp = split(line)
                self.points[series, stamp] = fields
        return True

    def stop(self):
        self.running.shutdown()
        self.running.server_close()

    def arguments(self, room):
        where = ["--database", "boat"] if self.version == 1 else ["--org", "o", "--bucket", "b"]
        return ["--influx", f"http://127.0.0.1:{self.port}", "--state", f"{room}/state", *where]

    def has(self):
        with self.lock:
            return {(series, stamp): fields for (series, stamp), fields in self.points.items()}


class Influxd:
    """The real InfluxDB 1.x."""

    def __init__(self, room):
        if not shutil.which("influxd"):
            print("there is no influxd")
            sys.exit(77)
        self.room, self.port, self.running = room, free_port(), None
        with open(f"{room}/influx.conf", "w", encoding="utf-8") as file:
            file.write(f"""reporting-disabled = true
bind-address = "127.0.0.1:{free_port()}"
[meta]
  dir = "{room}/influx/meta"
[data]
  dir = "{room}/influx/data"
  wal-dir = "{room}/influx/wal"
[http]
  bind-address = "127.0.0.1:{self.port}"
  log-enabled = false
""")

    def start(self):
        with open(f"{self.room}/influx.said", "ab") as said:
            self.running = subprocess.Popen(["influxd", "run", "-config", f"{self.room}/influx.conf"], stdout=said, stderr=said)

    def stop(self):
        # What InfluxDB has acknowledged is on the disk, so it may be killed.
        self.running.kill()
        self.running.wait()

    def arguments(self, room):
        return Server.arguments(self, room)

    version = 1

    def ask(self, query):
        url = f"http://127.0.0.1:{self.port}/query?{urllib.parse.urlencode({'db': 'boat', 'q': query, 'epoch': 'ns'})}"
        while self.running.poll() is None:
            try:
                with urllib.request.urlopen(url) as answer:
                    return json.load(answer)["results"][0].get("series", [])
            except OSError:
                time.sleep(0.1)
        raise ChildProcessError("influxd has ended")

    def has(self):
        """The number of points of each measurement."""
        return {it["name"]: it["values"][0][1] for it in self.ask("SELECT COUNT(dst) FROM /.*/")}


class Base:
    """SQLite, which other processes lock from time to time."""

    def __init__(self, room):
        self.file, self.other = f"{room}/boat.db", None

    def start(self):
        if self.other:
            self.other.execute("ROLLBACK")
            self.other.close()
            self.other = None

    def stop(self):
        self.other = sqlite3.connect(self.file, timeout=3600, isolation_level=None)
        self.other.execute("BEGIN IMMEDIATE")

    def arguments(self, _):
        return ["--sqlite", self.file]

    def has(self):
        with sqlite3.connect(self.file) as base:
            return list(base.execute("SELECT time, prio, src, dst, pgn, description, fields FROM n2k"))


def free_port():
    with socket.socket() as it:
        it.bind(("127.0.0.1", 0))
        return it.getsockname()[1]


def split(line):
    """Splits a line of the protocol into its series, its fields and its time."""
    inside, places = False, []
    for at, sign in enumerate(line):
        if sign == '"' and line[at - 1] != "\\":
            inside = not inside
        elif sign == " " and not inside and line[at - 1] != "\\":
            places.append(at)
    return line[: places[0]], line[places[0] + 1 : places[-1]], line[places[-1] + 1 :]


def messages(chance, count, days):
    """JSON lines of several days, some with the same series and timestamp."""
    with open(f"{ROOT}/tests/logs/trip.json", encoding="utf-8") as file:
        kinds = [it[it.index('"prio"') :] for it in file]
    at = 1751608800000
    for number in range(count):
        at += chance.choice([0, 0, 1, 5, 40]) if number % (count // days) else 86400000
        day = time.strftime("%Y-%m-%dT%H:%M:%S", time.gmtime(at // 1000))
        kind = chance.choice(kinds).replace('"SID":0', f'"SID":{chance.randrange(250)}')
        yield f'{{"timestamp":"{day}.{at % 1000:03d}Z",{kind}'.encode()


class Folder:
    """A folder that grows."""

    def __init__(self, room, chance):
        self.path, self.chance, self.day, self.lost, self.grown = f"{room}/boat", chance, None, [], 0
        os.mkdir(self.path)

    def name(self, day):
        return f"{self.path}/{day}.json"

    def add(self, line):
        day = line[14:24].decode()
        if day != self.day:
            before, self.day = self.day, day
            open(self.name(day), "wb").close()
            if before and self.chance.randrange(3):
                with open(f"{self.path}/.new", "wb") as file:
                    file.write(gzip.compress(open(self.name(before), "rb").read()))
                os.rename(f"{self.path}/.new", self.name(before))
                os.rename(self.name(before), f"{self.name(before)}.gz")
        with open(self.name(day), "ab", buffering=0) as file:
            half = self.chance.randrange(len(line)) if self.chance.random() < 0.01 else 0
            file.write(line[:half])
            if half:
                time.sleep(0.02)
            file.write(line[half:])

    def cut(self):
        """A power cut removes the end of the file, and n2k-logger ends the truncated line."""
        with open(self.name(self.day), "rb+") as file:
            text = file.read()
            left = max(0, len(text) - self.chance.randrange(6000))
            self.lost += text[text.rfind(b"\n", 0, left) + 1 :].splitlines(True)
            file.truncate(left)
            file.seek(left)
            if left and not text[:left].endswith(b"\n"):
                file.write(b"\n")

    def renew(self):
        """The newest file continues as another file, as when it was gzipped and is unpacked."""
        shutil.copy(self.name(self.day), f"{self.path}/.new")
        os.rename(f"{self.path}/.new", self.name(self.day))

    def text(self):
        found = {}
        for it in sorted(os.listdir(self.path)):
            text = open(f"{self.path}/{it}", "rb").read()
            found[it[:10]] = gzip.decompress(text) if it.endswith(".gz") else text
        return found


def converted(task, text):
    ran = subprocess.run([CONVERT, task], input=text, capture_output=True, check=False)
    # Truncated lines are not messages, which gives status 1.
    if ran.returncode > 1:
        raise subprocess.SubprocessError(ran.stderr.decode())
    return ran.stdout.decode()


def rows_of(text):
    for line in text.splitlines():
        try:
            it = json.loads(line)
            yield (it["timestamp"], it["prio"], it["src"], it["dst"], it["pgn"], it["description"],
                   line.decode().partition('"fields":')[2].rstrip()[:-1])
        except ValueError:
            pass


def trial(name, room, chance):
    server = {"influx1": lambda: Server(chance, 1), "influx2": lambda: Server(chance, 2),
              "influxd": lambda: Influxd(room), "sqlite": lambda: Base(room)}[name]()
    folder, lines = Folder(room, chance), [*messages(chance, 6000, 3)]
    for line in lines[:10]:
        folder.add(line)
    command = [FEED, *server.arguments(room), "--every", "0.1", folder.path]
    environment = {**os.environ, "INFLUX_TOKEN": TOKEN}
    said = open(f"{room}/said", "ab")

    def begin():
        return subprocess.Popen(command, env=environment, stderr=said)

    feed, place = begin(), 10
    if name != "sqlite":
        server.start()
    time.sleep(1)
    for stop in range(STOPS):
        for line in lines[place : place + len(lines) // STOPS]:
            folder.add(line)
            place += 1
            if chance.random() < 0.02:
                time.sleep(0.02 * chance.random())
        way = chance.choice(["server", "server", "both", "cut", "renew"])
        if way in ("both", "cut"):
            feed.kill()
            feed.wait()
        if way == "cut":
            folder.cut()
        if way == "renew":
            folder.renew()
        server.stop()
        time.sleep(0.3 * chance.random())
        server.start()
        time.sleep(chance.choice([0.1, 0.5, 1.5]) * chance.random())
        if feed.poll() is not None:
            feed = begin()
    for line in lines[place:]:
        folder.add(line)
    # It may wait some seconds before its next request.
    time.sleep(1)
    feed.terminate()
    feed.wait()
    if subprocess.run([*command, "--once"], env=environment, stderr=said, check=False).returncode > 1:
        yield f"it fails: {open(f'{room}/said', encoding='utf-8').read()}"
    texts = folder.text()
    has = server.has()
    if name == "sqlite":
        wanted = {it for text in texts.values() for it in rows_of(text)}
        spare = {*rows_of(b"".join(folder.lost))}
        if len({*has}) != len(has) or wanted - {*has} or {*has} - wanted - spare:
            yield f"{len(has)} rows, {len({*has})} of them different, {len(wanted - {*has})} missing, {len({*has} - wanted - spare)} not of the files"
    else:
        wanted = {}
        for text in texts.values():
            for line in converted("influx", text).splitlines():
                series, fields, stamp = split(line)
                if (series, stamp) in wanted:
                    yield f"two points of one time: {line}"
                wanted[series, stamp] = fields
        if name == "influxd":
            counts, lost = {}, {}
            for series, _ in wanted:
                measure = series.partition(",src=")[0].replace("\\", "")
                counts[measure] = counts.get(measure, 0) + 1
            for line in folder.lost:
                measure = line.partition(b'"description":"')[2].partition(b'"')[0].decode()
                lost[measure] = lost.get(measure, 0) + 8
            for measure in {*counts, *has}:
                if not counts.get(measure, 0) <= has.get(measure, 0) <= counts.get(measure, 0) + lost.get(measure, 0):
                    yield f"{has.get(measure, 0)} points of {measure}, and not {counts.get(measure, 0)}, of lost lines {lost.get(measure, 0)}"
        else:
            missing = [key for key, fields in wanted.items() if has.get(key) != fields]
            if missing:
                yield f"{len(missing)} points of {len(wanted)} are missing or others, such as {missing[0]}"
            spare = {(it.partition('"timestamp":"')[2][:24]) for it in map(bytes.decode, folder.lost)}
            if len({*has} - {*wanted}) > 3 * len(folder.lost):
                yield f"{len({*has} - {*wanted})} points that are not of the files, {len(spare)} stamps were lost"
    if "for good" in open(f"{room}/said", encoding="utf-8").read():
        yield f"refused: {open(f'{room}/said', encoding='utf-8').read()}"
    if name != "sqlite":
        server.stop()


class Ending(Server):
    """A server that tells feed to end instead of answering its second request."""

    def __init__(self):
        super().__init__(random.Random(), 1)
        self.has_database, self.asked, self.feed = True, 0, None
        # Never refuses or disconnects at random.
        self.chance.random = lambda: 1

    def store(self, body):
        self.asked += 1
        if self.asked == 2:
            self.feed.terminate()
            self.feed.wait()
            return False
        return super().store(body)


def ended(_, room, __):
    """Three messages with the same series and timestamp; feed ends while the second is being sent."""
    server, file = Ending(), f"{room}/boat/2025-07-04.json"
    lines = [f'{{"timestamp":"2025-07-04T06:00:00.000Z","prio":3,"src":1,"dst":255,"pgn":128267,"description":"Depth","fields":{{"Depth":{it}.00}}}}\n'
             for it in range(3)]
    os.mkdir(f"{room}/boat")
    command = [FEED, *server.arguments(room), "--every", "0.05", f"{room}/boat"]
    server.start()
    with open(file, "w", encoding="utf-8", buffering=1) as folder:
        folder.write(lines[0])
        server.feed = subprocess.Popen(command, stderr=subprocess.DEVNULL)
        while not server.has() and server.feed.poll() is None:
            time.sleep(0.05)
        folder.write(lines[1])
        server.feed.wait()
        folder.write(lines[2])
    subprocess.run([*command, "--once"], check=True, stderr=subprocess.DEVNULL)
    server.stop()
    has = sorted((int(stamp), fields) for (_, stamp), fields in server.has().items())
    if has != [(1751608800000000000 + it, f"dst=255,Depth={it}") for it in range(3)]:
        yield f"{has}, asked {server.asked} times"


def main():
    name, count, seed = sys.argv[1], int([*sys.argv, 1, 1][2]), int([*sys.argv, 1, 1, 1][3])
    faults = 0
    for number in range(seed, seed + count):
        room = tempfile.mkdtemp()
        try:
            for fault in (ended if name == "ended" else trial)(name, room, random.Random(number)):
                faults += 1
                print(f"{name}, seed {number}: {fault}", flush=True)
        finally:
            shutil.rmtree(room, ignore_errors=True)
    print(f"{faults} faults")
    return bool(faults)


if __name__ == "__main__":
    sys.exit(main())
