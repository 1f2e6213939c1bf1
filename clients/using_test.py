#!/usr/bin/env python3
"""Does what docs/USING.md says as it stands there, over the server that `make run` starts, and ends with one line 'N passed, M failed'.

usage: clients/using_test.py

Its files are written, its commands are typed into one shell, and what they print is compared with what the page shows, but for the time of day of the log;
the ports of the page stand for free ones. Its example has each key of the configuration, its rules name metrics that the server tells, each row of its table is
made to happen, and its links lead somewhere, as do those of docs/PROFILE.md. It needs boto3, the AWS command line and curl; node, java and promtool are asked
where they are installed.
The status is 1 where something is not as it should be.
"""
import contextlib
import json
import os
import random
import re
import shutil
import signal
import socket
import subprocess
import sys
import tempfile
import threading
import time
import urllib.request
from pathlib import Path

sys.dont_write_bytecode = True
from using_rows import PATIENCE, QUEUES, ROOT, ROWS, Rows, Server  # noqa: E402

PAGE, PROFILE = ROOT / "docs" / "USING.md", ROOT / "docs" / "PROFILE.md"
BLOCK = re.compile(r"(?:^`([\w.]+)`:\n\n)?^```(\w*)\n(.*?)^```$", re.M | re.S)
# The ports that the page names.
PORTS = ("9324", "9325", "9424", "9425")
SERVES = "sqs_server: requests at "
# What a line of the log begins with.
TIME = re.compile(r"(?m)^\d\d:\d\d:\d\d\.\d{3}Z ")
# A metric in an expression of Prometheus, and what it asks of the labels.
METRIC = re.compile(r"\b((?:jutkariq|process)_\w+)(?:\{([^}]*)\})?")
# What stands in the example with another value than its default.
OTHERS = ("wait_seconds", "breaches", "dead_letter_queue", "max_receive_count")
# What stands there more than once.
TWICE = ("name", "queue")


class Checks:
    """What was checked."""

    def __init__(self):
        self.passed = self.failed = 0

    def check(self, what, is_so, found=""):
        """Counts one check, and prints it where it failed."""
        self.passed, self.failed = self.passed + bool(is_so), self.failed + (not is_so)
        if not is_so:
            print(f"using-test: {what}: not so{f'; found {found!r}' if found else ''}", flush=True)

    def equal(self, what, found, wanted):
        """Checks that what was found is what is wanted."""
        self.check(what, found == wanted)
        if found != wanted:
            print(f"  found:\n{found}\n  wanted:\n{wanted}", flush=True)


class Shell:
    """A shell that commands are typed into, one after the other, as the reader of the page does."""

    MARK = "-- the command has ended --"

    def __init__(self, environment):
        how = {"stdin": subprocess.PIPE, "stdout": subprocess.PIPE, "stderr": subprocess.STDOUT, "text": True, "start_new_session": True}
        self.it = subprocess.Popen(["bash", "--norc", "--noprofile"], cwd=ROOT, env=environment, **how)
        self.lines, self.more = [], threading.Condition()
        threading.Thread(target=self.read, daemon=True).start()

    def read(self):
        """Keeps the lines that are printed."""
        for line in self.it.stdout:
            with self.more:
                self.lines.append(line.rstrip("\n"))
                self.more.notify()

    def type(self, command, wanted=""):
        """Types a command, and returns what it prints. What goes on in the background, as the log, has its time to say as many lines as are wanted."""
        self.lines.clear()
        self.it.stdin.write(f"{{ {command}\n}} < /dev/null\nprintf '\\n%s\\n' '{self.MARK}'\n")
        self.it.stdin.flush()
        count = len(wanted.splitlines()) + 2 if command.endswith("&") or TIME.search(wanted) else 0
        with self.more:
            self.more.wait_for(lambda: self.MARK in self.lines and len(self.lines) >= count, 2 * PATIENCE)
            said = "\n".join(line for line in self.lines if line != self.MARK)
        return re.sub(r"(?m)^bash: line \d+: +\d+ Terminated .*\n?", "", said).strip("\n")

    def end(self):
        """Ends it, with all that it started."""
        os.killpg(self.it.pid, signal.SIGTERM)
        self.it.wait()


class Page:
    """The page, done from its top to its end."""

    def __init__(self, checks, program, room):
        self.checks, self.program, self.room, self.text = checks, program, room, PAGE.read_text()
        self.ports = dict(zip(PORTS, free_ports(len(PORTS))))
        ports = {"JUTKARIQ_PORT": self.ports["9324"], "JUTKARIQ_STATISTICS_PORT": self.ports["9325"]}
        # a make that was told so by another one says where it works
        clean = {key: value for key, value in os.environ.items() if not key.startswith(("AWS_", "MAKE", "MFLAGS"))}
        config = {"AWS_CONFIG_FILE": os.devnull, "AWS_SHARED_CREDENTIALS_FILE": os.devnull, "AWS_PAGER": "", "NO_PROXY": "*"}
        self.environment = {**clean, **config, **ports, "TMPDIR": room}
        self.begun = time.monotonic()
        self.shell = Shell(self.environment)

    def real(self, text):
        """Puts the ports in use in the place of those of the page."""
        return re.sub(rf"\b({'|'.join(PORTS)})\b", lambda found: self.ports[found[1]], text)

    def shown(self, text):
        """Puts the ports of the page in the place of those in use."""
        names = {port: name for name, port in self.ports.items()}
        return re.sub(rf"\b({'|'.join(names)})\b", lambda found: names[found[1]], text)

    def do(self):
        """Does what each block says."""
        for name, language, text in BLOCK.findall(self.text):
            if name:
                folder = Path(self.shell.type("pwd"))
                (folder / name).write_text(self.real(text))
                if name.endswith(".rules.yml"):
                    Metrics(self, folder).check()
            elif language == "sh":
                self.checks.equal(text.strip(), self.shell.type(self.real(text.strip())), "")
            else:
                self.checks.check("a block is a file, words of a shell, or a command with what it prints", text.startswith("$ ") and not language, text)
                for command, wanted in re.findall(r"^\$ (.*)\n((?:(?!\$ ).*\n)*)", text, re.M):
                    self.run(command, wanted.strip("\n"))

    def run(self, command, wanted):
        """Runs one command, and compares what it prints."""
        program = command.split()[0]
        if program in ("node", "java") and not shutil.which(program):
            print(f"skipped: {command}: {program} is not installed")
        elif wanted.startswith(SERVES) and not command.endswith("&"):
            self.checks.equal(command, self.shown(self.served(self.real(command))), wanted)
        else:
            self.checks.equal(command, log_first(self.shown(self.shell.type(self.real(command), wanted))), log_first(wanted))

    def served(self, command):
        """Runs a command that serves until Ctrl-C, and returns the first line that it prints."""
        how = {"stdout": subprocess.PIPE, "stderr": subprocess.DEVNULL, "text": True, "start_new_session": True}
        with subprocess.Popen(["bash", "-c", command], cwd=ROOT, env=self.environment, **how) as it:
            timer = threading.Timer(PATIENCE, lambda: os.killpg(it.pid, signal.SIGTERM))
            timer.start()
            line = it.stdout.readline().strip()
            if it.poll() is None:
                os.killpg(it.pid, signal.SIGINT)
            it.wait()
            self.checks.check(f"{command}: Ctrl-C ends it", timer.is_alive())
            timer.cancel()
        return line


class Metrics:
    """The scrape configuration, the rules and the expression of the page, beside what the server tells."""

    def __init__(self, page, folder):
        self.page, self.checks, self.folder = page, page.checks, folder
        target = re.search(r'targets: \["([^"]+)"\]', (folder / "prometheus.yml").read_text())[1]
        self.text = fetched(f"http://{target}/metrics")
        self.series = {**series_of(self.metrics_of_a_full_journal()), **series_of(self.text)}
        self.rules = re.findall(r"(?m)^ +expr: (.+)$", (folder / "jutkariq.rules.yml").read_text())
        self.expressions = [*self.rules, *re.findall(r"`(sum [^`]+)`", page.text)]

    def metrics_of_a_full_journal(self):
        """Returns what a server tells that has answered with status 500."""
        with Server(f"[limits]\nmax_lines = 1\n{QUEUES}", program=self.page.program) as server:
            for _ in range(2):
                server.ask("SendMessage", {"QueueUrl": "jobs", "MessageBody": "a"})
            return fetched(f"{server.statistics_endpoint}/metrics")

    def check(self):
        """Checks that each expression asks for what is told, that the metrics of the page are told, and what promtool says of all."""
        self.checks.check("the target tells metrics", len(series_of(self.text)) > 20, self.text)
        self.checks.check("there are three rules, and one more expression", (len(self.rules), len(self.expressions)) == (3, 4), self.expressions)
        asked = {expression: self.asked(expression) for expression in self.expressions}
        for expression, series in asked.items():
            self.checks.check(f"{expression}: such a metric is told", series, self.text)
            told = {self.series[it] for it in self.series if it.partition("{")[0] == METRIC.search(expression)[1]}
            self.checks.check(f"{expression}: such a value is told", " == " not in expression or expression.split()[-1] in told, told)
        self.check_server()
        self.check_health()
        if not shutil.which("promtool"):
            print("skipped: promtool is not installed: Debian's package prometheus has it")
            return
        self.promtool("check", "metrics", text=self.text)
        self.promtool("check", "rules", "jutkariq.rules.yml")
        self.promtool("check", "config", "prometheus.yml")
        tests = [self.test_of(expression, series[0]) for expression, series in asked.items() if series]
        (self.folder / "tests.yml").write_text(json.dumps({"rule_files": ["jutkariq.rules.yml"], "tests": tests}))
        self.promtool("test", "rules", "tests.yml")

    def check_server(self):
        """Checks what the server tells of itself, and that the page names no metric that is not told."""
        named = {*re.findall(r"`((?:jutkariq|process)_\w+)`", self.page.text)}
        self.checks.equal("the page names what the server tells of itself", sorted(named), ["jutkariq_build_info", "process_start_time_seconds"])
        version = subprocess.run([self.page.program, "--version"], capture_output=True, text=True, timeout=PATIENCE).stdout.split()[-1]
        self.checks.check("its version", self.series.get(f'jutkariq_build_info{{version="{version}"}}') == "1", self.text)
        age = time.time() - int(self.series.get("process_start_time_seconds", 0))
        self.checks.check("when it was started", 0 <= age < time.monotonic() - self.page.begun + 2, age)

    def check_health(self):
        """Checks that the words for a container succeed where the server serves, and fail where nobody listens."""
        words = re.search(r"`HEALTHCHECK CMD ([^`]+)`", self.page.text)[1]
        for port, status in (("9325", 0), ("9425", 1)):
            ran = subprocess.run(["sh", "-c", self.page.real(words.replace("9325", port))], capture_output=True, timeout=PATIENCE)
            self.checks.check(f"{words}, at port {port}: status {status}", ran.returncode == status, ran.returncode)

    def asked(self, expression):
        """Returns the series that an expression looks at, of those that are told."""
        name, labels = METRIC.search(expression).groups()
        wanted = re.findall(r'(\w+)(!?=)"([^"]*)"', labels or "")
        found = {it: dict(re.findall(r'(\w+)="([^"]*)"', it)) for it in self.series if it.partition("{")[0] == name}
        return [it for it, has in found.items() if all(key in has and (has[key] == value) == (how == "=") for key, how, value in wanted)]

    def test_of(self, expression, series):
        """Returns a test of promtool: that an expression is what it is to be for a series as it is told, which then rests."""
        if "rate(" in expression:
            return self.test_of_rate(expression, series)
        # the value that is its bound, or the next above it, and then 0
        bound = int(expression.split()[-1])
        value = bound if "==" in expression else bound + 1
        found = [{"labels": series, "value": value}]
        return of_promtool(expression, series, f"{value} {value} 0 0 0 0", {"1m": found, "5m": []})

    def test_of_rate(self, expression, series):
        """The same of a counter, which is added to once a second for ten minutes."""
        action = re.search(r'action="[^"]*"', series)[0]
        labels = f"{{{action}}}"
        at_rest = [] if expression.endswith("> 0") else [{"labels": labels, "value": 0}]
        return of_promtool(expression, series, "0+60x10 600x20", {"10m": [{"labels": labels, "value": 1}], "25m": at_rest})

    def promtool(self, *words, text=None):
        """Asks promtool, which is to say nothing against it."""
        ran = subprocess.run(["promtool", *words], cwd=self.folder, input=text, capture_output=True, text=True, timeout=PATIENCE)
        self.checks.check(f"promtool {' '.join(words)}", ran.returncode == 0 and "error" not in ran.stderr, ran.stdout + ran.stderr)


def of_promtool(expression, series, values, found):
    """Returns a test of promtool: what an expression is at some times, where a series has these values minute by minute."""
    samples = [{"expr": expression, "eval_time": at, "exp_samples": what} for at, what in found.items()]
    return {"interval": "1m", "input_series": [{"series": series, "values": values}], "promql_expr_test": samples}


def series_of(text):
    """Returns the values that a text of Prometheus has, each by its name and labels."""
    return dict(line.rsplit(" ", 1) for line in text.splitlines() if not line.startswith("#"))


def log_first(text):
    """Returns what was printed with the lines of the log in front, which come when they come, and without their time of day."""
    lines = text.splitlines()
    log = [TIME.sub("", line) for line in lines if TIME.match(line)]
    return "\n".join([*log, "\n".join(line for line in lines if not TIME.match(line)).strip("\n")])


def free_ports(count):
    """Returns so many ports that are free, as texts: below those that a system gives to connections by itself."""
    found, left = [], iter(random.sample(range(20_000, 30_000), 1_000))
    while len(found) < count:
        port = next(left)
        with contextlib.suppress(OSError), socket.socket() as it:
            it.bind(("127.0.0.1", port))
            found.append(str(port))
    return found


def fetched(url):
    """Returns what a server tells, or an empty text where it refuses or does not listen."""
    with contextlib.suppress(OSError), urllib.request.urlopen(url, timeout=PATIENCE) as it:
        return it.read().decode()
    return ""


def section(text, number):
    """Returns a section of docs/PROFILE.md."""
    return re.search(rf"(?ms)^## {number}\. .*?(?=^## |\Z)", text)[0]


def check_example(checks):
    """Checks that the example has each key of the configuration once, with its default where the page says so."""
    profile, example = PROFILE.read_text(), re.search(r"(?ms)^`shop\.toml`:\n\n```toml\n(.*?)^```", PAGE.read_text())[1]
    rows = re.findall(r"(?m)^\|[^|]*\| `(\w+)` \|.*\| ([^|]+) \|$", section(profile, 19))
    rows += [(key, default) for key, default in re.findall(r"(?m)^\|[^|]*\| `(\w+)` \|[^|]*\|[^|]*\| ([^|]+) \|[^|]*\|$", section(profile, 3))]
    defaults = {key: default.replace(",", "") for key, default in rows}
    checks.check("PROFILE.md has keys", len(defaults) > 15, defaults)
    found = re.findall(r"(?m)^(\w+) = (\S+)", example)
    names = [key for key, _ in found]
    checks.equal("the example has each key", sorted({*names}), sorted(defaults))
    checks.equal("each key stands there once, but for name and queue", sorted(it for it in names if it not in TWICE), sorted({*names} - {*TWICE}))
    for key, value in found:
        if defaults.get(key) != "required":
            checks.check(f"{key} = {value}: a default stands there, or another value", (value == defaults.get(key)) != (key in OTHERS), defaults.get(key))


def check_elasticmq(checks, program):
    """Checks that the keys of ours beside those of ElasticMQ are there, and that a file of ElasticMQ is what the page says."""
    rows = re.findall(r"(?m)^\| (.+?) \| (.+?) \|$", re.search(r"(?ms)^## From ElasticMQ\n(.*?)^## ", PAGE.read_text())[1])[2:]
    keys = {*re.findall(r"`(\w+)` \|", section(PROFILE.read_text(), 19) + section(PROFILE.read_text(), 3))}
    told = subprocess.run([program, "--help"], capture_output=True, text=True, timeout=PATIENCE).stdout
    checks.check("the table has rows", len(rows) > 15, rows)
    for theirs, ours in rows:
        words = [it for it in re.findall(r"`([a-zA-Z_]+)(?: = [^`]*)?`", ours) if it not in ("elasticmq", "localhost", "NAME")]
        checks.check(f"{theirs}: {ours}", all(it in keys or it in told for it in words) and (words or "[[" in ours or "no counterpart" in ours), words)
    with tempfile.NamedTemporaryFile("w", suffix=".conf") as it:
        it.write('include classpath("application.conf")\nqueues {\n  orders { delay = 5 seconds }\n}\n')
        it.flush()
        ran = subprocess.run([program, it.name], capture_output=True, text=True, timeout=PATIENCE)
    checks.check("a file of ElasticMQ is the fault Syntax", ran.stderr.startswith("sqs_server: config: Syntax\n"), ran.stderr)


def check_table(checks, program):
    """Makes each row of the table happen, and checks that what it says is seen is seen."""
    table = re.search(r"(?m)^\| What you see \| .*\n\|.*\n((?:\|.*\n)+)", PAGE.read_text())[1]
    rows = [line.split(" | ")[0].removeprefix("| ") for line in table.splitlines()]
    left = dict(ROWS)
    for row in rows:
        texts = re.findall(r"`([^`]+)`", row)
        name = next((it for it in [*texts, row] if it in left), None)
        checks.check(f"{row}: the row can be made to happen", name)
        if name:
            said = left.pop(name)(Rows(program, lambda what, is_so: checks.check(f"{row}: {what}", is_so)))
            for text in [*texts, *re.findall(r"^\d{3}(?= )|(?<=, )\d{3}$", row)]:
                checks.check(f"{row}: {text} is seen", text in said, said)
    checks.equal("each row that can be made to happen stands in the table", sorted(left), [])


def anchors(text):
    """Returns what links can lead to: the headings in small letters, without signs, blanks as hyphens."""
    return {re.sub(r"[^\w\- ]", "", it.strip().lower()).replace(" ", "-") for it in re.findall(r"(?m)^#+ (.+)$", re.sub(r"(?ms)^```.*?^```", "", text))}


def check_links(checks):
    """Checks that each link of both pages leads to a file, and to a heading of it, and that the contents of docs/PROFILE.md have each section once."""
    for page in (PAGE, PROFILE):
        text = page.read_text()
        links = re.findall(r"\]\((?!http)([^)#]*)#?([^)]*)\)", re.sub(r"`[^`\n]*`", "", text))
        checks.check(f"{page.name} has links", len(links) > 15, links)
        for path, heading in links:
            to = page.parent / path if path else page
            is_there = to.is_file() and (not heading or heading in anchors(to.read_text()))
            checks.check(f"{page.name}: a link to {path}#{heading}", is_there)
    head, _, rest = PROFILE.read_text().partition("\n## ")
    listed = [number for number, again in re.findall(r"\]\(#(\d+)-[^)]*\) \((\d+)\)", head) if number == again]
    checks.equal("the contents of PROFILE.md have each section once", sorted(map(int, listed)), [int(it) for it in re.findall(r"(?m)^## (\d+)\.", f"\n## {rest}")])
    headings = re.findall(r"(?m)^## (.+)$", re.sub(r"(?ms)^```.*?^```", "", PAGE.read_text()))
    contents = re.search(r"(?ms)^Contents: (.*?)\n\n", PAGE.read_text())[1]
    checks.equal("the contents of USING.md have its sections in order", re.findall(r"\(#([^)]+)\)", contents), [next(iter(anchors(f"# {it}"))) for it in headings])


def stop_where_wanting():
    """Stops where something is wanting that the page needs."""
    for program, package in (("bash", "bash"), ("curl", "curl"), ("aws", "awscli, of 2024 or later")):
        if not shutil.which(program):
            sys.exit(f"using-test: no {program}: install Debian's package {package}; nothing was tried")
    try:
        import boto3
    except ImportError:
        sys.exit("using-test: no boto3: install it by pip, or Debian 13's package python3-boto3; nothing was tried")
    version = subprocess.run(["aws", "--version"], capture_output=True, text=True).stdout.split()[0]
    print(f"with boto3 {boto3.__version__} and {version}", flush=True)


def main(words):
    """Tries it all, and returns the status."""
    if words:
        print(__doc__, file=sys.stderr)
        return 2
    stop_where_wanting()
    # the page has it where it is wanted
    os.environ.pop("JUTKARIQ_LOG", None)
    program = subprocess.run([f"{ROOT}/tools/run", "--which", "sqs_server"], stdout=subprocess.PIPE, text=True, check=True).stdout.strip()
    checks = Checks()
    check_links(checks)
    check_example(checks)
    check_elasticmq(checks, program)
    with tempfile.TemporaryDirectory(prefix="using-", ignore_cleanup_errors=True) as room:
        page = Page(checks, program, room)
        try:
            page.do()
        finally:
            page.shell.end()
    check_table(checks, program)
    print(f"{checks.passed} passed, {checks.failed} failed")
    return 1 if checks.failed else 0


if __name__ == "__main__":
    sys.exit(main(sys.argv[1:]))
