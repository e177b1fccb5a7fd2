#!/usr/bin/env python3
"""nginx in front of the built program, by deploy/nginx.conf: what it lets through, and requests a second.

usage: bench/nginx.py [SECONDS]

Starts, in a fresh folder and on free ports of this machine, a server that writes, four on copies of its closed file,
each by deploy/serve, and nginx with a certificate of its own making and a password. It compares replies over TLS, with
and without the password, with it for another site's page, from 64 clients at once, and over a run's end; asks without
it, in many spellings, for changes of the stores; asks 200 jobs
by four clients at once, each at the path of one server, all four at one path, and at that by address; and then counts
for so many seconds (5) how many requests of 16 clients are answered where one server reads and where four do. Ends with
status 1 where a reply was wrong. It needs nginx (`apt-get install nginx`), openssl and curl; `rt run` in crates/rasterd
builds the program.
"""
import base64
import collections
import concurrent.futures
import contextlib
import http.client
import os
import re
import shutil
import signal
import ssl
import subprocess
import sys
import tempfile
import time
import urllib.parse

sys.dont_write_bytecode = True
TOP = os.path.dirname(os.path.dirname(os.path.abspath(__file__)))
sys.path[:0] = [f"{TOP}/clients/python", f"{TOP}/scripts"]

import rasterd
from served import LONGEST, connected, free_port, until

PROGRAM = os.environ.get("SERVER", f"{TOP}/crates/rasterd/out/rasterd")
NGINX = shutil.which("nginx") or "/usr/sbin/nginx"
SIDE = 256
SUM = "request=ProcessCoverages&query=for+c+in+(lai)+return+add(c)"
LIST = "request=ListCoverages"
PASSWORD = {"Authorization": "Basic " + base64.b64encode(b"editor:secret").decode()}
# The paths that ask for no password.
OPEN = ["/ows", "/1/ows", "/2/ows", "/3/ows", "/4/ows", "/job/ows"]


class Site:
    """The servers and nginx, in a folder."""

    def __init__(self, folder):
        self.folder = folder
        self.running, self.nginx = [], None
        self.writer, self.front, *self.readers = (free_port() for _ in range(6))
        self.make_certificate()

    def make_certificate(self):
        made = ["openssl", "req", "-x509", "-newkey", "rsa:2048", "-nodes", "-days", "1", "-subj", "/CN=localhost"]
        made += ["-keyout", f"{self.folder}/key.pem", "-out", f"{self.folder}/certificate.pem"]
        subprocess.run(made, check=True, capture_output=True)
        word = subprocess.run(
            ["openssl", "passwd", "-apr1", "secret"], check=True, capture_output=True, text=True
        ).stdout
        with open(f"{self.folder}/passwords", "w") as file:
            file.write(f"editor:{word}")

    def serve(self, name, port, count):
        words = [f"{TOP}/deploy/serve", f"{self.folder}/{name}", str(port), str(count)]
        self.running.append(
            subprocess.Popen(
                words,
                env=dict(os.environ, SERVER=PROGRAM, KEEP="no"),
                stderr=subprocess.DEVNULL,
                start_new_session=True,
            )
        )
        connected(port, self.running[-1]).close()

    def start_nginx(self, readers):
        with open(f"{TOP}/deploy/nginx.conf") as file:
            text = file.read()
        entries = "".join(f"        server 127.0.0.1:{port} max_fails=0;\n" for port in readers)
        text = re.sub(r"(        server 127\.0\.0\.1:800[1-4] max_fails=0;\n)+", entries, text)
        for number, port in enumerate(self.readers, 1):
            text = text.replace(f"127.0.0.1:800{number}/ows", f"127.0.0.1:{port}/ows")
        text = text.replace("127.0.0.1:8000", f"127.0.0.1:{self.writer}").replace(
            "listen 443", f"listen 127.0.0.1:{self.front}"
        )
        text = text.replace("/etc/rasterd", self.folder).replace("/run/nginx.pid", f"{self.folder}/pid")
        text = text.replace("/var/log/nginx", self.folder)
        places = "".join(
            f"    {kind}_temp_path {self.folder}/{kind};\n"
            for kind in ["client_body", "proxy", "fastcgi", "uwsgi", "scgi"]
        )
        text = text.replace("http {\n", "http {\n" + places, 1)
        with open(f"{self.folder}/nginx.conf", "w") as file:
            file.write("daemon off;\nuser root;\n" + text)
        words = [NGINX, "-p", self.folder, "-c", f"{self.folder}/nginx.conf", "-e", f"{self.folder}/error.log"]
        self.nginx = subprocess.Popen(words, start_new_session=True)
        connected(self.front, self.nginx).close()

    def stop_nginx(self):
        self.nginx.terminate()
        self.nginx.wait(LONGEST)

    def stop_servers(self):
        for script in self.running:
            os.killpg(script.pid, signal.SIGTERM)
        ends = [script.wait(LONGEST) for script in self.running]
        self.running = []
        if any(ends):
            raise SystemExit(f"WRONG: deploy/serve ended with {ends}")

    def end(self):
        """Ends all that runs; what has not ended in time is killed."""
        left = [it for it in [self.nginx, *self.running] if it and it.poll() is None]
        for process in left:
            os.killpg(process.pid, signal.SIGTERM)
        for process in left:
            with contextlib.suppress(subprocess.TimeoutExpired):
                process.wait(LONGEST)
            if process.poll() is None:
                os.killpg(process.pid, signal.SIGKILL)
                process.wait()

    def tls(self):
        context = ssl.create_default_context(cafile=f"{self.folder}/certificate.pem")
        context.check_hostname = False
        return context

    def client(self):
        return http.client.HTTPSConnection("127.0.0.1", self.front, timeout=LONGEST, context=self.tls())

    def session(self, path):
        return rasterd.Session(port=self.front, path=path, tls=self.tls())

    def ask(self, path, pairs, headers={}, body=None, method=None):
        """The status and the body of a reply."""
        client = self.client()
        client.request(method or ("POST" if body else "GET"), f"{path}?{pairs}" if pairs else path, body, headers)
        answer = client.getresponse()
        found = answer.status, answer.read().decode()
        client.close()
        return found


def same(found, wanted):
    if found != wanted:
        raise SystemExit(f"WRONG: {found!r} is not {wanted!r}")


def ask_again(site, *words):
    """What is answered where the client asks again when it is told 502: a run has ended, the next begins."""
    return until(lambda: found if (found := site.ask(*words))[0] != 502 else None, "an answer of a run")


def fill(site):
    """A coverage, written over TLS with the password and refused without."""
    insert = f"request=InsertCoverage&coverage=lai&domain=x(0:{SIDE - 1}),y(0:{SIDE - 1})&fields=v:i16"
    same(site.ask("/edit/ows", insert)[0], 401)
    same(site.ask("/edit/ows", insert, PASSWORD), (200, "ok\n"))
    update = f"request=UpdateCoverage&coverage=lai&field=v&box=x(0:{SIDE - 1}),y(0:{SIDE - 1})&fill=1"
    same(site.ask("/edit/ows", "", PASSWORD, update), (200, "ok\n"))
    # 300 requests, 16 at once, over the ends of runs of 50 connections: each is answered, where a client that is told
    # 502 asks again.
    with concurrent.futures.ThreadPoolExecutor(16) as pool:
        for found in pool.map(lambda _: ask_again(site, "/edit/ows", LIST, PASSWORD), range(300)):
            same(found, (200, "lai\n"))


def without_password(site):
    """What changes a store is passed at no path that asks for no password, in whatever spelling; what reads is."""
    change = "request=DeleteCoverage&coverage=lai"
    spelled = [
        "request=UpdateCoverage&coverage=lai&field=v&box=x(0:0),y(0:0)&fill=9",
        "request=InsertCoverage&coverage=b",
    ]
    spelled += [change, "coverage=lai&request=DeleteCoverage", "&" + change, "Request=DeleteCoverage&coverage=lai"]
    spelled += [
        "request=%44eleteCoverage&coverage=lai",
        "%72equest=DeleteCoverage&coverage=lai",
        "request=ListCoverage",
    ]
    spelled += [
        f"request=ListCoverages%26{change}",
        f"request=ListCoverages;{change}",
        f"request=ListCoverages {change}",
    ]
    text = "for c in (lai) return max(c)"
    longest = f"request=ProcessCoverages&query={urllib.parse.quote(text.ljust(65536))}"
    other, repeated = (400, "refused 11 UnknownRequest\n"), (400, "refused 13 RepeatedKey\n")
    for path in OPEN:
        for pairs in [*spelled, ""]:
            same(site.ask(path, pairs.replace(" ", "%20"))[0], 403)
            same(site.ask(path, "", body=pairs or " "), other)
        for second in [change, "Request=DeleteCoverage&coverage=lai", "%72equest=DeleteCoverage&coverage=lai"]:
            same(site.ask(path, f"{LIST}&{second}"), repeated)
            same(site.ask(path, "", body=f"{LIST}&{second}"), repeated)
        same(site.ask(path, LIST, body=change), other)
        same(site.ask(path, change, body=LIST), (200, "lai\n"))
        same(site.ask(path, f"{LIST}&text=%23&&"), (200, "lai\n"))
        same(site.ask(path, "", body=longest), (200, "1\n"))
        same(site.ask(path, "", body=f"{LIST}&text=".ljust(1000000, "+")), other)
        same(site.ask(path, "", method="PUT", body=LIST)[0], 403)
    # what nginx takes for a fragment goes on to the server
    same(site.ask("/ows", f"{LIST}#&{change}"), repeated)
    same(site.ask("/1/ows", f"{LIST}#&{change}"), (200, "lai\n"))
    same(site.ask("/ows", f"{SUM}"), (200, f"{SIDE * SIDE}\n"))


def jobs(site, paths):
    """What became of 50 jobs of each of some clients at once, each at its path, counted; no two clients ask the
    same."""

    def one(number, path):
        told, session = collections.Counter(), site.session(path)
        for turn in range(50):
            wanted = f"{SIDE * SIDE + 1000 * number + turn}\n"
            query = f"for c in (lai) return add(c) + {1000 * number + turn}"
            try:
                found = session.run(query, units=4, progress=None)
                told["right" if found == wanted else "WRONG ANSWER"] += 1
            except (rasterd.Refused, rasterd.NotUnderstood) as refusal:
                told[str(refusal)[:40]] += 1
        return told

    with concurrent.futures.ThreadPoolExecutor(len(paths)) as pool:
        return dict(sum(pool.map(one, range(len(paths)), paths), collections.Counter()))


def logged(site):
    """The servers that the requests at each path of one server went to, by the lines of the access log."""
    found = collections.defaultdict(set)
    with open(f"{site.folder}/rasterd.log") as file:
        for line in file:
            words = re.fullmatch(r'\S+ \S+ "POST (/[0-9]/ows) [^"]*" 200 [0-9.]+ (\S+) [0-9.]+\n', line)
            if words:
                found[words[1]].add(words[2])
    return dict(found)


def rate(site, seconds):
    """How many requests a second 16 clients have answered."""
    end = time.monotonic() + seconds

    def one(_):
        client, count = site.client(), 0
        while time.monotonic() < end:
            client.request("GET", f"/ows?{SUM}")
            same(client.getresponse().read(), b"%d\n" % (SIDE * SIDE))
            count += 1
        return count

    with concurrent.futures.ThreadPoolExecutor(16) as pool:
        return sum(pool.map(one, range(16))) / seconds


def main():
    seconds = float(sys.argv[1]) if len(sys.argv) > 1 else 5.0
    with tempfile.TemporaryDirectory() as folder:
        site = Site(folder)
        try:
            site.serve("store", site.writer, 50)
            site.start_nginx(site.readers)
            fill(site)
            site.stop_servers()
            for number, port in enumerate(site.readers):
                shutil.copy(f"{folder}/store", f"{folder}/copy{number}")
                site.serve(f"copy{number}", port, 1000000)
            site.serve("store", site.writer, 50)
            with concurrent.futures.ThreadPoolExecutor(64) as pool:
                for found in pool.map(lambda _: ask_again(site, "/ows", SUM), range(256)):
                    same(found, (200, f"{SIDE * SIDE}\n"))
            same(site.ask("/other", LIST)[0], 404)
            same(site.ask("/edit/ows", LIST, PASSWORD | {"Sec-Fetch-Site": "cross-site"})[0], 403)
            without_password(site)
            same(jobs(site, ["/1/ows", "/2/ows", "/3/ows", "/4/ows"]), {"right": 200})
            same(jobs(site, ["/2/ows"] * 4), {"right": 200})
            same(jobs(site, ["/job/ows"] * 4), {"right": 200})
            print("jobs of four clients at once, at four paths, at one and by address: 600 of 600 right", flush=True)
            same(logged(site), {f"/{k}/ows": {f"127.0.0.1:{port}"} for k, port in enumerate(site.readers, 1)})
            four = rate(site, seconds)
            site.stop_nginx()
            site.start_nginx(site.readers[:1])
            one = rate(site, seconds)
        finally:
            site.end()
    print(
        f"sum of {SIDE} x {SIDE} cells over TLS, 16 clients: {one:.0f} requests a second by one server, {four:.0f} by four, {four / one:.2f} times"
    )


if __name__ == "__main__":
    main()
