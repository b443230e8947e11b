"""Short logs, one of each kind that gets an answer of its own, with the whole report that is right for it. Each report says what somebody
wants who doesn't know the log: written by hand from the lines, before the program ran on them."""
import shlex
from dataclasses import dataclass, field


@dataclass
class Case:
    name: str
    why: str
    lines: str | bytes
    report: str
    words: list = field(default_factory=lambda: ["log"])
    status: int = 0
    notes: str = ""
    more_files: dict = field(default_factory=dict)

    @property
    def files(self):
        name = self.words[-1]
        return {name: self.lines, **self.more_files}


def rows(*rows, unit="lines"):
    """The rows of patterns that match some of the lines alone."""
    return f"{unit}  fields\n" + "".join(f"{lines:>5}  {fields:>6}  {command}\n" for lines, fields, command in rows)


def proposal(count, command, of=None, unit="lines", shares=None):
    """The report if no definition matches more than half of the lines."""
    of = of or count
    what = f"these patterns match {count} of {of} {unit} ({' + '.join(map(str, shares))})" if shares else \
        f"this pattern matches {count} of {of} {unit}"
    return f"no definition matches more than half of the {of} {unit}\n{what}:\n{command}\n"


WATCHDOG = """\
2026-11-28 06:25:05,899 watchdog.filter         [1234]: INFO    [sshd] Found 192.0.2.10 - 2026-11-28 06:25:05
2026-11-28 06:25:06,001 watchdog.actions        [1234]: NOTICE  [sshd] Ban 192.0.2.10
2026-11-28 06:35:06,120 watchdog.actions        [1234]: NOTICE  [sshd] Unban 192.0.2.10
2026-11-28 06:40:11,310 watchdog.filter         [1234]: INFO    [nginx-http-auth] Found 198.51.100.7 - 2026-11-28 06:40:11
2026-11-28 06:41:00,002 watchdog.jail           [1234]: INFO    Jail 'sshd' started
"""
SQUID = "1764311105.12{}    217 192.0.2.17 TCP_MISS/200 3456 GET http://www.example.com/ alice HIER_DIRECT/198.51.100.4 text/html\n"
KLOG = "I1128 06:25:0{}.123456    2201 controller.go:123] Starting controller {}\n"
REDIS = "2201:M 28 Nov 2026 06:25:0{}.123 * Ready to accept connections\n"
DOOR = "door {} opened by card 12{}\n"
COMBINED = '192.0.2.{} - - [28/Nov/2026:06:25:0{} +0000] "GET /a HTTP/1.1" 200 51{} "-" "curl/8.5.0"'
LOGIN = "Nov 28 06:25:0{} web1 auth[12]: user={} action=login ms={}\n"
TRACE = """\
2026-11-28 06:25:01,123 INFO worker started
2026-11-28 06:25:02,123 ERROR job 12 failed
Traceback (most recent call last):
  File "a.py", line 3, in f
ValueError: no
2026-11-28 06:25:03,123 INFO worker stopped
"""
EVENT = "  more\n2026-11-28 06:25:0{} INFO a\n"
ERRORS = "11/28/2026 6:25:0{} AM {} {} disk\n"
USERS = ["bob", "alice", "eve"]
# Lines of one value, or of pairs with other names in each line, have no pattern.
FORMS = ["{}", "{}=", "{}=x", "{}=1", "{0}=x {0}{0}=x", "{0}=1 {0}{0}=x"]
SIX = [word for name in "ABCDEF" for word in ("-D", f"{name}=(?<{name.lower()}>[0-9]+) x")]
OWN = ["2f alice\n", "ab bob\n", "77 eve\n"]
KINDS = [word for name in "ABCDEF" for word in ("-D", f"{name}=(?<{name.lower()}>[0-9]) {name.lower()}")]
BLOCK = "[**] [1:{}] scan [**]\n[Priority: 2]\n06:25:0{}.123 192.0.2.1\n"
DOORS = "time,door,user,ms\n06:25:01,3,bob,4\n06:25:02,4,eve,9\n06:25:03,3,al,1\n"
EVENTS = ["-D", "ANY=%{TIME:time} %{LOGLEVEL:level} %{GREEDYDATA:text}",
          "-D", "NOPORT=%{TIME:time} %{LOGLEVEL:level} no port %{INT:port:int} on %{WORD:host}"]
STATE = "[177285630{}] CURRENT SERVICE STATE: web{};HTTP;OK;HARD;1;HTTP OK\n"
HALVES = "-D 'A=(?<n>[0-9]+) a' -D 'B=(?<n>[0-9]+) b'"
LETTERS = "-D 'A=(?<n>[0-9]+) [ab]' -D 'B=(?<n>[0-9]+) (?<k>[bc])'"
THREE = "-D 'A=(?<a>[0-9]+) [xy]' -D 'X=(?<a>[0-9]+) (?<x>x)' -D 'Y=(?<a>[0-9]+) (?<y>y)'"

CASES = [
    Case("a time, a level and no host", "a level after a time isn't a host", WATCHDOG, proposal(
        5, r"groklog '^%{TIMESTAMP_ISO8601:timestamp} %{NOTSPACE:logger} +\[%{INT:pid:int}\]: %{LOGLEVEL:level} +%{GREEDYDATA:message}$' log")),
    Case("several formats in one log", "one command with a pattern for each, also for the lines of no known format",
         "".join(SQUID.format(n) for n in range(6)) + "".join(KLOG.format(n, n) for n in range(6))
         + "".join(REDIS.format(n) for n in range(5)) + "".join(DOOR.format(n, n) for n in range(3)),
         rows((6, 12, "groklog '^%{SQUID3}$' log"), (6, 6, "groklog '^%{KLOG}$' log"), (5, 5, "groklog '^%{REDISLOG}$' log"))
         + proposal(20, "groklog -e '^%{SQUID3}$' -e '^%{KLOG}$' -e '^%{REDISLOG}$' "
                        "-e '^door %{INT:door:int} opened by card %{INT:card:int}$' log", shares=[6, 6, 5, 3])),
    Case("a known format and a number", "the format is kept", "".join(COMBINED.format(n, n, n) + f" 0.0{n}\n" for n in range(1, 5)),
         rows((4, 12, "groklog '^%{COMBINEDAPACHELOG} %{NUMBER:number:float}$' log"))),
    Case("a known format and a word", "the format is kept",
         "".join(COMBINED.format(n, n, n) + f" {'hit' if n % 2 else 'miss'}\n" for n in range(1, 5)),
         rows((4, 12, "groklog '^%{COMBINEDAPACHELOG} %{WORD:word}$' log"))),
    Case("keys and values after the head of syslog", "values take their keys",
         "".join(LOGIN.format(n, user, n * 7) for n, user in enumerate(USERS)),
         rows((3, 6, "groklog '^%{SYSLOGBASE} user=%{NOTSPACE:user} action=login ms=%{INT:ms:int}$' log"),
              (3, 5, "groklog '^%{SYSLOGLINE}$' log"))),
    Case("a date with the name of a month", "no month and no host is literal",
         "".join(f"Nov 28 2026 06:25:0{n} fw1 : built connection {1000 + n}\n" for n in range(4)),
         proposal(4, "groklog '^%{TIMESTAMP_MONTHNAME:timestamp} %{NOTSPACE:field} : built connection %{INT:connection:int}$' log")),
    Case("a date in brackets", "no date is literal",
         "".join(f'[28/Nov/2026 06:25:0{n}] "GET /polls/{n}/ HTTP/1.1" 200 {1200 + n}\n' for n in range(4)),
         proposal(4, r"groklog '^\[%{TIMESTAMP_MONTHNAME:timestamp}\] %{QS:request} %{INT:status:int} %{INT:number:int}$' log")),
    Case("a time of twelve hours", "it is one time with one key",
         "".join(ERRORS.format(n, level, 40 + n) for n, level in enumerate(["Error", "Warning", "Error"])),
         proposal(3, "groklog '^%{DATESTAMP_12H:timestamp} %{LOGLEVEL:level} %{INT:number:int} disk$' log")),
    Case("six words", "they are no fields of another program's log",
         "".join(f"user {user} logged in from 10.0.0.{n}\n" for n, user in enumerate(["alice", "bob", "eve"])),
         proposal(3, "groklog '^user %{NOTSPACE:user} logged in from %{IP:ip}$' log")),
    Case("a % before a quote", "it is no beginning of a placeholder", 'use %"a b" 1 at 12:00:01 z\n' * 3,
         proposal(3, "groklog '^use [%]%{QS:quoted} %{INT:number:int} at %{TIME:timestamp} z$' log")),
    Case("levels of different lengths, and units", "blanks that some lines lack, and a number without its unit",
         "".join(f"[{level}] took {n * 3}ms, {n}.5MB used\n" for n, level in enumerate(["INFO ", "ERROR", "WARN "])),
         proposal(3, r"groklog '^\[%{LOGLEVEL:level} *\] took %{INT:took:int}ms, %{NUMBER:size_mb:float}MB used$' log")),
    Case("events of several lines", "--start, and patterns for events", TRACE, "the lines are parts of 3 events\n" + proposal(
        3, r"groklog --start '^%{TIMESTAMP_ISO8601}' '^%{TIMESTAMP_ISO8601:timestamp} %{LOGLEVEL:level} %{GREEDYDATA:message}"
           r"(?:\n(?<more>(?s:.*)))?$' log", unit="events")),
    Case("events with lines that aren't UTF-8", "the command matches no event that isn't UTF-8",
         b"2026-11-30 10:00:01 a 1\n  at x\n2026-11-30 10:00:02 a 2\n  at \xff\n2026-11-30 10:00:03 a 3\n  at y\n",
         "the lines are parts of 3 events\n" + proposal(
             2, r"groklog --start '^%{TIMESTAMP_ISO8601}' '^%{TIMESTAMP_ISO8601:timestamp} %{NOTSPACE:field} %{INT:number:int}"
                r"(?:\n(?<more>(?s:.*)))?$' log", of=3, unit="events"),
         notes="groklog: line 4 of log isn't UTF-8, so it has no fields: use --lossy, or for another encoding "
               "iconv -f LATIN1 -t UTF-8 FILE | groklog ..\n"),
    Case("events in two files, of which the second begins with a line that begins none", "it belongs to no event of the first file",
         EVENT.format(3), "the lines are parts of 4 events\n" + proposal(
             3, r"groklog --start '^%{TIMESTAMP_ISO8601}' '^%{TIMESTAMP_ISO8601:timestamp} %{LOGLEVEL:level} a(?:\n(?<more>(?s:.*)))?$' first log",
             of=4, unit="events"),
         words=["first", "log"], more_files={"first": EVENT.format(1)[7:] + EVENT.format(2)}),
    Case("lines of JSON", "jq", '{"level":"info","n":1}\n{"level":"warn","n":2}\n',
         "these lines look like JSON objects, which jq reads:\njq -c . log\n"),
    Case("comma-separated values with names", "mlr", "time,host,status,ms\n06:25:01,a,200,4\n06:25:02,b,404,9\n06:25:03,a,200,1\n",
         "each line has 4 values, after their names in the first line, which mlr reads:\nmlr --icsv --ojson cat log\n"),
    Case("tab-separated values with names", "mlr", "time\thost\tstatus\tms\n06:25:01\ta\t200\t4\n06:25:02\tb\t404\t9\n06:25:03\ta\t200\t1\n",
         "each line has 4 values, after their names in the first line, which mlr reads:\nmlr --itsv --ojson cat log\n"),
    Case("tab-separated values without names", "mlr, and a pattern whose tabs are escaped for the shell", "1\t2\t3\tx\n4\t5\t6\ty\n",
         "each line has 4 values, which mlr reads, too:\nmlr --itsv --implicit-tsv-header --ojson cat log\n"
         + proposal(2, r"groklog $'^%{INT:number:int}\x09%{INT:number2:int}\x09%{INT:number3:int}\x09%{NOTSPACE:field}$' log")),
    Case("values between semicolons with names", "mlr", "a;b;c;d\n1;2;3;x\n4;5;6;y\n",
         "each line has 4 values, after their names in the first line, which mlr reads:\nmlr --icsv --ifs ';' --ojson cat log\n"),
    Case("values between semicolons in a known format", "no other program is named", STATE.format(1, 1) + STATE.format(2, 2),
         rows((2, 8, "groklog '^%{NAGIOSSTATELINE}$' log"), (2, 8, "groklog '^%{NAGIOSLOGLINE}$' log"))),
    Case("comma-separated values without names", "mlr, and a pattern that takes each value",
         '06:25:01,"a b",200,\n06:25:02,"c, d",404,x\n06:25:03,"e",200,\n',
         "each line has 4 values, which mlr reads, too:\nmlr --icsv --implicit-csv-header --ojson cat log\n"
         + proposal(3, "groklog '^%{TIME:timestamp},%{QS:quoted},%{INT:number:int},%{CSVVALUE:field}$' log")),
    Case("lines that end in carriage returns", "--crlf", "".join(f"door {n} opened at 06:25:0{n}\r\n" for n in range(3)),
         proposal(3, "groklog --crlf '^door %{INT:door:int} opened at %{TIME:timestamp}$' log")),
    Case("a definition with keys written by hand", "it is tried, and a part of it isn't", "".join(OWN),
         rows((3, 2, "groklog --no-common -D 'LL=%{HEX} (?<b>[a-z]+)' -D 'HEX=(?<a>[0-9a-f]+)' '^%{LL}$' log")),
         words=["--no-common", "-D", "LL=%{HEX} (?<b>[a-z]+)", "-D", "HEX=(?<a>[0-9a-f]+)", "log"]),
    Case("a definition for Logstash", "it is rewritten, and the command has the options", "".join(OWN),
         rows((3, 2, "groklog --no-common --from-logstash --loose -D 'LL=(?<a>\\h+) (?<b>[a-z]+)(?!x)' '^%{LL}$' log")),
         words=["--no-common", "--from-logstash", "--loose", "-D", r"LL=(?<a>\h+) (?<b>[a-z]+)(?!x)", "log"]),
    Case("a file whose name begins with -", "it is no option", DOOR.format(1, 1) * 2 + DOOR.format(2, 2),
         proposal(3, "groklog '^door %{INT:door:int} opened by card %{INT:card:int}$' -- --html=x.log"),
         words=["--", "--html=x.log"]),
    Case("definitions that grow", "a definition is measured before it is expanded", DOOR.format(1, 1) * 2 + DOOR.format(2, 2),
         proposal(3, "groklog -D D0=x " + " ".join(f"-D 'D{n + 1}=%{{D{n}:k}}%{{D{n}:k}}'" for n in range(30))
                  + " '^door %{INT:door:int} opened by card %{INT:card:int}$' log"),
         words=[word for n in range(31) for word in ("-D", f"D{n}=" + (f"%{{D{n - 1}:k}}%{{D{n - 1}:k}}" if n else "x"))] + ["log"]),
    Case("a limit of the expanded text", "the command has it", DOOR.format(1, 1) * 2 + DOOR.format(2, 2),
         proposal(3, "groklog --max-expansion 50000 '^door %{INT:door:int} opened by card %{INT:card:int}$' log"),
         words=["--max-expansion", "50000", "log"]),
    Case("a control character", "it is escaped for the shell", "a\x01b 1\na\x01b 2\n",
         proposal(2, r"groklog $'^a\x01b %{INT:number:int}$' log")),
    Case("a control character in the name of a file", "it is escaped for the shell, and not written to the terminal",
         '{"level":"info","n":1}\n{"level":"warn","n":2}\n',
         "these lines look like JSON objects, which jq reads:\n" + r"jq -c . $'a\x1b[2J\'b\\'" + "\n", words=["a\x1b[2J'b\\"]),
    Case("one line that ends in a carriage return", "neither the command nor a hint has --crlf", DOOR.format(1, 1).replace("\n", "\r\n")
         + DOOR.format(2, 2) + DOOR.format(3, 3), proposal(
             3, "groklog '^door %{INT:door:int} opened by card %{INT:card:int}%{GREEDYDATA:message}$' log")),
    Case("a very long line", "it isn't looked at", "a" * 100_000 + "\n" + DOOR.format(1, 1) + DOOR.format(2, 2),
         "1 line is longer than 64 KiB, and wasn't looked at\n"
         + proposal(2, "groklog '^door %{INT:door:int} opened by card %{INT:card:int}$' log")),
    Case("two very long lines", "they are counted", ("a" * 100_000 + "\n") * 2 + DOOR.format(1, 1) + DOOR.format(2, 2),
         "2 lines are longer than 64 KiB, and weren't looked at\n"
         + proposal(2, "groklog '^door %{INT:door:int} opened by card %{INT:card:int}$' log")),
    Case("a header", "its lines don't count", "#Version: 1.0\n#Fields: time door\n" + "".join(f"06:25:0{n} door {n}\n" for n in range(3)),
         proposal(3, "groklog '^%{TIME:timestamp} %{NOTSPACE:field} %{INT:number:int}$' log")),
    Case("a file of gzip", "the hint of a run", b"\x1f\x8b\x08\x00\xff\n", "there are no lines to suggest a pattern for\n",
         notes="groklog: log looks like a file of gzip: use zcat FILE | groklog ..\n"),
    Case("a file in UTF-16", "the hint of a run", "door 1 opened\n".encode("utf-16"), "there are no lines to suggest a pattern for\n",
         notes="groklog: log looks like UTF-16: use iconv -f UTF-16 -t UTF-8 FILE | groklog ..\n"),
    Case("a file in Latin-1", "the hint of a run", "T\u00fcr 1\n".encode("latin-1"), "there are no lines to suggest a pattern for\n",
         notes="groklog: line 1 of log isn't UTF-8, so it has no fields: use --lossy, or for another encoding "
               "iconv -f LATIN1 -t UTF-8 FILE | groklog ..\n"),
    Case("a word that a definition would cut", "the definition isn't what the lines begin with",
         "".join(f'192.0.2.{n} - - [28/Nov/2026:06:25:0{n} +0000] "GET /{n} HTTP/1.1" 200 51{n}_ms\n' for n in range(4)),
         proposal(4, r"groklog '^%{IP:ip} \- \- \[%{HTTPDATE:timestamp}\] %{QS:request} %{INT:status:int} %{WORD:word}$' log")),
    Case("values between semicolons without names", "the first line has values, and no names", "1;2;3;4\n5;6;7;8\n9;8;7;6\n",
         "each line has 4 values, which mlr reads, too:\nmlr --icsv --ifs ';' --implicit-csv-header --ojson cat log\n"
         + proposal(3, "groklog '^%{INT:number:int};%{INT:number2:int};%{INT:number3:int};%{INT:number4:int}$' log")),
    Case("lines that end in a blank and a carriage return", "the blank stays", "".join(f"door {n} open \r\n" for n in range(1, 4)),
         proposal(3, "groklog --crlf '^door %{INT:door:int} open $' log")),
    Case("warnings of Nagios alone", "each beginning of a line of the format counts",
         "".join(f"[177285630{n}] Warning: job {n} is late\n" for n in range(1, 5)), rows((4, 2, "groklog '^%{NAGIOSLOGLINE}$' log"))),
    Case("a journal with times in seconds", "each form of the time counts",
         "".join(f"177285630{n} web-07 systemd[1]: Started {n}\n" for n in range(1, 5)), rows((4, 5, "groklog '^%{JOURNALLINE}$' log"))),
    Case("lines with # among others", "only those at the front are a header", "# a 1\nx 1 y\n# b 2\nx 2 y\nx 3 y\n",
         proposal(5, r"groklog -e '^x %{INT:number:int} y$' -e '^\# %{WORD:word} %{INT:number:int}$' log", shares=[3, 2])),
    Case("one line without a time", "it makes no events of the others",
         "".join(f"2026-11-28 06:25:0{n} INFO {word}\n" for n, word in enumerate("abc", 1)) + "  more\n",
         proposal(4, "groklog -e '^%{TIMESTAMP_ISO8601:timestamp} %{LOGLEVEL:level} %{WORD:word}$' -e '^ +more$' log", shares=[3, 1])),
    Case("two lines of forty without a time", "they are enough to make events of the others",
         "".join(f"06:{n}:01 door {n}\n" for n in range(10, 48)) + "  more\n" * 2, "the lines are parts of 38 events\n" + proposal(
             38, r"groklog --start '^%{TIME}' '^%{TIME:timestamp} %{NOTSPACE:field} %{INT:number:int}(?:\n(?<more>(?s:.*)))?$' log", unit="events")),
    Case("two lines of sixty without a time", "they make no events of the others",
         "".join(f"06:{n // 60:02}:{n % 60:02} door {n}\n" for n in range(10, 68)) + "  more\n" * 2,
         proposal(58, "groklog '^%{TIME:timestamp} %{NOTSPACE:field} %{INT:number:int}$' log", of=60)),
    Case("a digit before a time", "no event begins so", "".join(f"host7 06:25:0{n} INFO a\n  more\n" for n in range(1, 4)),
         proposal(6, "groklog -e '^%{WORD:word} %{TIME:timestamp} %{LOGLEVEL:level} a$' -e '^ +more$' log", shares=[3, 3])),
    Case("a format that two lines of a hundred have", "one in fifty is enough for it to be in the command",
         "".join(SQUID.format(n) for n in range(10, 70)) + KLOG.format(1, 1) + KLOG.format(2, 2) + "".join(DOOR.format(n, n) for n in range(38)),
         rows((60, 12, "groklog '^%{SQUID3}$' log"), (2, 6, "groklog '^%{KLOG}$' log"))
         + "these patterns match 100 of 100 lines (60 + 2 + 38):\n"
         "groklog -e '^%{SQUID3}$' -e '^%{KLOG}$' -e '^door %{INT:door:int} opened by card %{INT:card:int}$' log\n"),
    Case("a format that one line has", "it is listed, and isn't in the command", "".join(KLOG.format(n, n) for n in range(1, 6))
         + "2201:M 28 Nov 2026 06:25:01.123 * Ready\nodd one\nodd two\n",
         rows((5, 6, "groklog '^%{KLOG}$' log"), (1, 5, "groklog '^%{REDISLOG}$' log"))
         + "these patterns match 8 of 8 lines (5 + 2 + 1):\n"
         r"groklog -e '^%{KLOG}$' -e '^odd %{WORD:odd}$' -e '^%{INT:number:int}:M %{TIMESTAMP_MONTHNAME:timestamp} \* Ready$' log" "\n"),
    Case("six formats in one log", "five of them are in the command, and a proposal for the lines of the sixth",
         "".join(f"{n} {letter}\n" for n in (1, 2) for letter in "abcdef"),
         rows(*((2, 1, f"groklog --no-common {shlex.join(KINDS)} '^%{{{name}}}$' log") for name in "ABCDE"))
         + proposal(12, f"groklog --no-common {shlex.join(KINDS)} " + " ".join(f"-e '^%{{{name}}}$'" for name in "ABCDE")
                    + r" -e '^%{WORD:word=\w+} f$' log", shares=[2] * 6),
         words=["--no-common", *KINDS, "log"]),
    Case("two lines of twenty that have no time, and a known format", "nine lines of ten are known, so they make no events",
         "".join(f"2026/03/07 04:05:{n} a{n}\n" for n in range(10, 28)) + "  more\n" * 2, rows((18, 2, "groklog '^%{GOLOG}$' log"))),
    Case("a rest that one line of twenty lacks", "it may be missing with the blank before it",
         "".join(f"up 06:25:{n} {'a b' if n % 2 else 'c,d'}\n" for n in range(10, 29)) + "up 06:25:29\n",
         proposal(20, "groklog '^up %{TIME:timestamp}(?: %{GREEDYDATA:message})?$' log")),
    Case("comma-separated values that begin with a blank", "blanks after a comma are those of a sentence, and others aren't",
         " a,b,1,2\n c,d,3,4\n e,f,5,6\n",
         "each line has 4 values, which mlr reads, too:\nmlr --icsv --implicit-csv-header --ojson cat log\n"
         + proposal(3, "groklog '^%{CSVVALUE:field},%{CSVVALUE:field2},%{INT:number:int},%{INT:number2:int}$' log")),
    Case("names of values above two lines", "two are enough to see that the first has none", "a,b,c,d\n1,2,3,4\n5,6,7,8\n",
         "each line has 4 values, after their names in the first line, which mlr reads:\nmlr --icsv --ojson cat log\n"),
    Case("integers of eighteen digits", "they fit into 64 bits", "".join(f"door 12345678901234567{n} x\n" for n in (8, 9)),
         proposal(2, "groklog '^door %{INT:door:int} x$' log")),
    Case("integers of nineteen digits", "not all of them fit into 64 bits", "".join(f"door 123456789012345678{n} x\n" for n in (8, 9)),
         proposal(2, "groklog '^door %{NUMBER:door} x$' log")),
    Case("sixteen characters before a time", "they may begin an event",
         "".join(f"application abc 2026-11-28 06:25:0{n} INFO a\n  more\n" for n in range(1, 4)),
         "the lines are parts of 3 events\n" + proposal(
             3, r"groklog --start '^application abc %{TIMESTAMP_ISO8601}' '^application abc %{TIMESTAMP_ISO8601:timestamp} %{LOGLEVEL:level} a"
                r"(?:\n(?<more>(?s:.*)))?$' log", unit="events")),
    Case("seventeen characters before a time", "they begin no event",
         "".join(f"application abcd 2026-11-28 06:25:0{n} INFO a\n  more\n" for n in range(1, 4)),
         proposal(6, r"groklog -e '^application abcd %{TIMESTAMP_ISO8601:timestamp} %{LOGLEVEL:level} a$' -e '^ +more$' log", shares=[3, 3])),
    Case("a line of 64 KiB", "it is looked at, its first 4096 bytes token by token", "door 1 " + "x" * (65536 - 7) + "\ndoor 2 y\n",
         proposal(2, "groklog '^door %{INT:door:int} %{GREEDYDATA:message}$' log")),
    Case("a line of 64 KiB and a byte", "it isn't looked at", "door 1 " + "x" * (65537 - 7) + "\ndoor 2 y\ndoor 3 z\n",
         "1 line is longer than 64 KiB, and wasn't looked at\n" + proposal(2, "groklog '^door %{INT:door:int} %{WORD:word}$' log")),
    Case("nine lines of ten that begin with a definition", "the tenth may begin with something else",
         "".join(LOGIN.format(n, USERS[n % 3], n * 7) for n in range(9)) + "odd one\n",
         rows((9, 6, "groklog '^%{SYSLOGBASE} user=%{NOTSPACE:user} action=login ms=%{INT:ms:int}$' log"),
              (9, 5, "groklog '^%{SYSLOGLINE}$' log"))),
    Case("eight lines of ten that begin with a definition", "too many begin with something else",
         "".join(LOGIN.format(n, USERS[n % 3], n * 7) for n in range(8)) + "7 odd one\n8 odd two\n",
         rows((8, 6, "groklog '^%{SYSLOGBASE} user=%{NOTSPACE:user} action=login ms=%{INT:ms:int}$' log"),
              (8, 5, "groklog '^%{SYSLOGLINE}$' log"))
         + "these patterns match 10 of 10 lines (8 + 2):\ngroklog -e '^%{SYSLOGBASE} user=%{NOTSPACE:user} action=login ms=%{INT:ms:int}$' "
           "-e '^%{INT:number:int} odd %{WORD:odd}$' log\n"),
    Case("nine lines of ten of one form", "the tenth gets no pattern of its own", "".join(DOOR.format(n, n) for n in range(1, 10)) + "lamp=7 x,y z\n",
         proposal(9, "groklog '^door %{INT:door:int} opened by card %{INT:card:int}$' log", of=10)),
    Case("one line of twenty that has no values", "the others are values between semicolons",
         "".join(f"{n};{n + 1};{n + 2};{n + 3}\n" for n in range(1, 20)) + "20\n",
         "each line has 4 values, which mlr reads, too:\nmlr --icsv --ifs ';' --implicit-csv-header --ojson cat log\n"
         + proposal(19, "groklog '^%{INT:number:int};%{INT:number2:int};%{INT:number3:int};%{INT:number4:int}$' log", of=20)),
    Case("one line of nineteen that has no values", "too few are values between semicolons for another program",
         "".join(f"{n};{n + 1};{n + 2};{n + 3}\n" for n in range(1, 19)) + "total\n",
         proposal(18, "groklog '^%{INT:number:int};%{INT:number2:int};%{INT:number3:int};%{INT:number4:int}$' log", of=19)),
    Case("names of values above one line", "one is too few to see that the first has none", "a,b,c,d\n1,2,3,4\n",
         "each line has 4 values, which mlr reads, too:\nmlr --icsv --implicit-csv-header --ojson cat log\n"
         + proposal(2, "groklog '^%{CSVVALUE:field},%{CSVVALUE:field2},%{CSVVALUE:field3},%{CSVVALUE:field4}$' log")),
    Case("six definitions that match all lines", "five are shown", "1 x\n2 x\n",
         rows(*((2, 1, f"groklog --no-common {shlex.join(SIX)} '^%{{{name}}}$' log") for name in "ABCDE")), words=["--no-common", *SIX, "log"]),
    Case("two forms with equally many lines", "the one that comes first is the first", "[a]\n(b)\n[c]\n(d)\n",
         proposal(4, r"groklog -e '^\[%{WORD:word}\]$' -e '^\(%{WORD:word}\)$' log", shares=[2, 2])),
    Case("a missing file", "the others are read", DOOR.format(1, 1) + DOOR.format(2, 2),
         proposal(2, "groklog '^door %{INT:door:int} opened by card %{INT:card:int}$' nowhere log"), words=["nowhere", "log"], status=3,
         notes="groklog: there is no file nowhere\n  try: check its name, and the folder that you are in\n"),
    Case("pairs that not all lines have", "the names that all lines have, and the other pairs as they are; a name is no level",
         'level=info t=2026-11-28T06:25:01Z user=bob msg="a b" n=1\nlevel=warn t=2026-11-28T06:25:02Z msg="c d" error="x y"\n'
         'level=info t=2026-11-28T06:25:03Z port=80 msg="e f" n=2\n',
         proposal(3, "groklog '^level=%{LOGLEVEL:level} t=%{TIMESTAMP_ISO8601:t} (?:%{DATA:pairs} +)?msg=%{QS:msg} %{GREEDYDATA:pairs2}$' log")),
    Case("a name that is a level", "it is the key of its value", "".join(f'job {n} error="x {n}"\n' for n in range(1, 4)),
         proposal(3, "groklog '^job %{INT:job:int} error=%{QS:error}$' log")),
    Case("names after #Fields:", "they are the keys of the columns",
         "#Version: 1.0\n#Fields: date time s-ip cs(User-Agent) sc-status\n"
         + "".join(f"2026-11-28 06:25:0{n} 192.0.2.{n} {agent} 20{n}\n" for n, agent in enumerate(["curl/8.5.0", "-", "Mozilla/5.0"])),
         proposal(3, "groklog '^%{DATE_ISO8601:date} %{TIME:time} %{IP:s-ip} %{NOTSPACE:cs_User-Agent} %{INT:sc-status:int}$' log")),
    Case("a first line of names between blanks", "they are the keys of the columns",
         "version port bytes action\n2 443 840 ACCEPT\n2 80 12 REJECT\n3 22 9 ACCEPT\n",
         proposal(3, "groklog '^%{INT:version:int} %{INT:port:int} %{INT:bytes:int} %{NOTSPACE:action}$' log", of=4)),
    Case("messages that begin alike after the head of syslog", "a pattern goes on in them",
         "".join(f"Nov 28 06:25:0{n} web1 slapd[12]: link={n} {what}\n" for n, what in enumerate(["op=2 UNBIND", "fd=14 closed", "op=0 RESULT"])),
         rows((3, 6, "groklog '^%{SYSLOGBASE} link=%{INT:link:int} %{GREEDYDATA:message}$' log"), (3, 5, "groklog '^%{SYSLOGLINE}$' log"))),
    Case("a format that finds more in some lines of another", "one command has both, the one that finds more first",
         "".join(f"Nov 28 06:25:0{n} web1 sshd[12]: pam_unix(sshd:session): session opened for user bob(uid=1001) by (uid=0)\n" for n in (1, 2))
         + "Nov 28 06:25:03 web1 systemd[1]: Started session 3\nNov 28 06:25:04 web1 kernel: eth0 up\n",
         rows((4, 5, "groklog '^%{SYSLOGLINE}$' log"), (2, 10, "groklog '^%{PAMLINE}$' log"))
         + "these patterns match 4 of 4 lines (2 + 2):\ngroklog -e '^%{PAMLINE}$' -e '^%{SYSLOGLINE}$' log\n"),
    Case("a level after a slash", "what is before it is the thread",
         "06:25:01 [Server thread/INFO]: bob joined\n06:25:02 [Worker-1/WARN]: can't keep up\n06:25:03 [Chat Thread - #1/INFO]: hello\n",
         proposal(3, r"groklog '^%{TIME:timestamp} \[%{DATA:thread}/%{LOGLEVEL:level}\]: %{GREEDYDATA:message}$' log")),
    Case("a level after a dot", "what is before it is the channel",
         "[06:25:01] app.INFO: bob joined 1\n[06:25:02] security.DEBUG: 2\n[06:25:03] php.WARNING: a b c\n",
         proposal(3, r"groklog '^\[%{TIME:timestamp}\] %{WORD:channel}\.%{LOGLEVEL:level}: %{GREEDYDATA:message}$' log")),
    Case("a logger, a file and a line", "they have keys of their own",
         "".join(f"06:25:0{n} INFO [shop.{part}] {part}.py:{n * 7} - {part}\n" for n, part in enumerate(["orders", "mail", "cart"], 1)),
         proposal(3, r"groklog '^%{TIME:timestamp} %{LOGLEVEL:level} \[%{DATA:logger}\] %{DATA:file}:%{INT:line:int} \- %{WORD:word}$' log")),
    Case("a host and a port", "the number after the address is the port", "".join(f"from 192.0.2.{n}:80{n} x\n" for n in range(1, 4)),
         proposal(3, "groklog '^from %{IP:ip}:%{INT:port:int} x$' log")),
    *(Case(f"the time {time.format(1)}", "it is one time", "".join(f"{time.format(n)} * up {n}\n" for n in range(1, 4)),
           proposal(3, rf"groklog '^%{{{name}:timestamp}} \* up %{{INT:up:int}}$' log")) for time, name in [
        ("28-NOV-2026 06:25:0{}", "TIMESTAMP_MONTHNAME"), ("nov/28/2026 06:25:0{}", "TIMESTAMP_MONTHNAME"), ("11/28-06:25:0{}.12", "DATESTAMP_SHORT")]),
    Case("a date, and a time of day after it", "the time of day is no timestamp", "".join(f"2026-11-28  6:25:0{n} up {n}\n" for n in range(1, 4)),
         proposal(3, "groklog '^%{DATE_ISO8601:date} +%{TIME:time} up %{INT:up:int}$' log")),
    Case("padding before numbers in brackets", "a longer number has none", "".join(f"load [{n:>3}] ok\n" for n in (5, 12, 99)),
         proposal(3, r"groklog '^load \[ *%{INT:number:int}\] ok$' log")),
    Case("a header of three lines", "it makes no events of the others",
         "Log opened\nby door control\nversion two\n" + "".join(f"2026-11-28 06:25:{n} INFO door {n} opened\n" for n in range(10, 50)),
         proposal(40, "groklog '^%{TIMESTAMP_ISO8601:timestamp} %{LOGLEVEL:level} door %{INT:door:int} opened$' log", of=43)),
    Case("lines that begin with words in capitals", "they are no parts of events",
         "".join(f"START job {n}\n2026-11-28 06:25:0{n} INFO copied {n * 3}\nEND job {n}\n" for n in range(1, 4)),
         proposal(9, "groklog -e '^%{WORD:word} job %{INT:job:int}$' "
                     "-e '^%{TIMESTAMP_ISO8601:timestamp} %{LOGLEVEL:level} copied %{INT:copied:int}$' log", shares=[6, 3])),
    Case("words in capitals of which one comes once", "they are parts of events", "".join(
        f"2026-11-28 06:25:0{n} INFO query\n{word} a{n}\n" for n, word in enumerate(["SELECT", "UPDATE", "SELECT"], 1)),
         "the lines are parts of 3 events\n" + proposal(
             3, r"groklog --start '^%{TIMESTAMP_ISO8601}' '^%{TIMESTAMP_ISO8601:timestamp} %{LOGLEVEL:level} query(?:\n(?<more>(?s:.*)))?$' log",
             unit="events")),
    Case("events after blank lines", "each begins with the text that no other line begins with",
         "".join(f"{BLOCK.format(n, n)}\n" for n in range(1, 4)), "the lines are parts of 3 events\n" + proposal(
             3, r"groklog --start '^\[\*\*\] \[' '^\[\*\*\] \[%{INT:number:int}:%{INT:number2:int}\] scan \[\*\*\](?:\n(?<more>(?s:.*)))?$' log",
             unit="events")),
    Case("events after blank lines in two files", "the first line of each file begins one", BLOCK.format(2, 2) + "\n" + BLOCK.format(3, 3),
         "the lines are parts of 3 events\n" + proposal(
             3, r"groklog --start '^\[\*\*\] \[' '^\[\*\*\] \[%{INT:number:int}:%{INT:number2:int}\] scan \[\*\*\](?:\n(?<more>(?s:.*)))?$' "
                "first log", unit="events"),
         words=["first", "log"], more_files={"first": BLOCK.format(1, 1)}),
    Case("blank lines, and another line that begins as those after them", "a line after a blank one begins no event",
         "* a 1\n* b 2\n\n* c 3\n* d 4\n", proposal(4, r"groklog '^\* %{WORD:word} %{INT:number:int}$' log")),
    Case("blank lines before most lines", "events have more than one line", "* a 1\n\n* b 2\n\n* c 3\n- d\n",
         proposal(4, r"groklog -e '^\* %{WORD:word} %{INT:number:int}$' -e '^\- d$' log", shares=[3, 1])),
    Case("values after their names, between semicolons", "mlr, and a pattern with the names",
         "at=06:25:01;host=web one;status=200;ms=4\nat=06:25:02;host=db;status=404;ms=9\n",
         "each line has 4 values after their names, which mlr reads, too:\nmlr --idkvp --ifs ';' --ojson cat log\n"
         + proposal(2, "groklog '^at=%{TIME:at};host=%{DATA:host};status=%{INT:status:int};ms=%{INT:ms:int}$' log")),
    Case("values after their names, between commas", "mlr reads them as they are", "a=1,b=2,c=3,d=x y\na=4,b=5,c=6,d=z\n",
         "each line has 4 values after their names, which mlr reads, too:\nmlr --idkvp --ojson cat log\n"
         + proposal(2, "groklog '^a=%{INT:a:int},b=%{INT:b:int},c=%{INT:c:int},d=%{CSVVALUE:d}$' log")),
    Case("values after their names, between tabs", "mlr, and tabs that are escaped for the shell", "a=1\tb=2\tc=3\td=x\na=4\tb=5\tc=6\td=y\n",
         "each line has 4 values after their names, which mlr reads, too:\nmlr --idkvp --ifs tab --ojson cat log\n"
         + proposal(2, r"groklog $'^a=%{INT:a:int}\x09b=%{INT:b:int}\x09c=%{INT:c:int}\x09d=%{NOTSPACE:d}$' log")),
    Case("values of which one has no name", "mlr reads them without names", "a=1;b=2;3;4\na=5;b=6;7;8\n",
         "each line has 4 values, which mlr reads, too:\nmlr --icsv --ifs ';' --implicit-csv-header --ojson cat log\n"
         + proposal(2, "groklog '^a=%{INT:a:int};b=%{INT:b:int};%{INT:number:int};%{INT:number2:int}$' log")),
    Case("values whose names differ", "the names are parts of the values", "a=1;b=2;c=3;d=4\na=5;b=6;c=7;e=8\n",
         "each line has 4 values after their names, which mlr reads, too:\nmlr --idkvp --ifs ';' --ojson cat log\n"
         + proposal(2, "groklog '^a=%{INT:a:int};b=%{INT:b:int};c=%{INT:c:int};%{NOTSPACE:field}$' log")),
    *(Case(f"names below {count} lines of text", "they are the keys of the columns", "Report of the doors\n" * count + DOORS,
           proposal(3, "groklog '^%{TIME:time},%{INT:door:int},%{CSVVALUE:user},%{INT:ms:int}$' log", of=count + 4)) for count in (1, 3)),
    Case("names below four lines of text", "that is too far down, so they are values as the others are", "Report of the doors\n" * 4 + DOORS,
         proposal(8, "groklog -e '^Report of the doors$' -e '^%{CSVVALUE:field},%{CSVVALUE:field2},%{CSVVALUE:field3},%{CSVVALUE:field4}$' log",
                  shares=[4, 4])),
    Case("two lines of twenty that differ, each at another place", "one of twenty may be left out in all, and not at each place",
         "".join(f"worker {n} took 45 ms today\n" for n in [*range(11, 29), "x"]) + "worker 29 took many ms today\n",
         proposal(19, "groklog '^worker %{INT:worker:int} took %{NOTSPACE:took} ms today$' log", of=20)),
    Case("events in two files, of which the second begins with a line that isn't UTF-8", "it belongs to no event of the first file",
         b"  at Caf\xe9.run\n04:06:01 ERROR no user\n  at Main.main\n", "the lines are parts of 4 events\n" + proposal(
             3, r"groklog --start '^%{TIME}' '^%{TIME:timestamp} %{LOGLEVEL:level} no %{WORD:word}(?:\n(?<more>(?s:.*)))?$' first log",
             of=4, unit="events"),
         words=["first", "log"], more_files={"first": "04:05:06 ERROR no port\n  at Server.open\n04:05:07 ERROR no host\n  at Main.main\n"},
         notes="groklog: line 1 of log isn't UTF-8, so it has no fields: use --lossy, or for another encoding "
               "iconv -f LATIN1 -t UTF-8 FILE | groklog ..\n"),
    Case("two definitions for the same events", "an event counts for the first of them alone", "".join(
        f"04:05:0{n} {text}\n  at Main.main\n" for n, text in enumerate(
            ["ERROR no port 80 on web", "ERROR no port 81 on web", "ERROR out of memory", "WARN too slow"], 6)),
         "the lines are parts of 4 events\n" + rows(
             *((count, fields, f"groklog {shlex.join(EVENTS)} --start '^%{{TIME}}' '^%{{{name}}}(?:\\n(?<more>(?s:.*)))?$' log")
               for count, fields, name in [(4, 4, "ANY"), (2, 5, "NOPORT")]), unit="events")
         + f"these patterns match 4 of 4 events (2 + 2):\ngroklog {shlex.join(EVENTS)} --start '^%{{TIME}}' "
         + " ".join(f"-e '^%{{{name}}}(?:\\n(?<more>(?s:.*)))?$'" for name in ["NOPORT", "ANY"]) + " log\n", words=[*EVENTS, "log"]),
    Case("a line that has nothing but separators", "its values are empty", "bob,7,open,north\n,,,\neve,12,shut,south\n",
         "each line has 4 values, which mlr reads, too:\nmlr --icsv --implicit-csv-header --ojson cat log\n"
         + proposal(3, "groklog '^%{CSVVALUE:field},%{CSVVALUE:field2},%{CSVVALUE:field3},%{CSVVALUE:field4}$' log")),
    Case("names of values of which only the first column has numbers", "they are names", "id,name,door,state\n7,bob,front,open\n8,eve,back,shut\n",
         "each line has 4 values, after their names in the first line, which mlr reads:\nmlr --icsv --ojson cat log\n"),
    Case("one line", "it is one line, and all of it is one pattern", "door 7 is open\n",
         "no definition matches the line\nthis pattern matches 1 of 1 line:\ngroklog '^door %{INT:door:int} is open$' log\n"),
    Case("one line of four that a format doesn't match", "one of several lines is few",
         "".join(KLOG.format(n, n) for n in (1, 2, 3)) + "odd one\n",
         rows((3, 6, "groklog '^%{KLOG}$' log"))),
    Case("two definitions of one key, each for half of the lines", "they match other lines, so both are listed; half isn't more than half",
         "1 a\n2 b\n3 a\n4 b\n", rows(*((2, 1, f"groklog {HALVES} '^%{{{name}}}$' log") for name in "AB")) + proposal(
             4, f"groklog {HALVES} -e '^%{{A}}$' -e '^%{{B}}$' log", shares=[2, 2]),
         words=[*shlex.split(HALVES), "log"]),
    Case("a definition that finds more, but in other lines, too", "it doesn't come before the one that matches most lines",
         "1 a\n2 a\n3 a\n4 b\n5 c\n6 c\n",
         rows((4, 1, f"groklog {LETTERS} '^%{{A}}$' log"), (3, 2, f"groklog {LETTERS} '^%{{B}}$' log"))
         + f"these patterns match 6 of 6 lines (4 + 2):\ngroklog {LETTERS} -e '^%{{A}}$' -e '^%{{B}}$' log\n",
         words=[*shlex.split(LETTERS), "log"]),
    *(Case(f"a definition for some lines of another that finds {what}", "the other one is enough", "1 x\n2 x\n3 x\n4 y\n",
           rows((4, 1, f"groklog {words} '^%{{A}}$' log"), (count, fields, f"groklog {words} '^%{{B}}$' log")),
           words=[*shlex.split(words), "log"])
      for what, words, count, fields in [
          ("as much", "-D 'A=(?<a>[0-9]+) [xy]' -D 'B=(?<b>[0-9]+) x'", 3, 1),
          ("more in one line", "-D 'A=(?<a>[0-9]+) [xy]' -D 'B=(?<b>[0-9]+) (?<y>y)'", 1, 2)]),
    Case("two definitions that find more in all lines of a third", "it comes after both of them, for other lines", "1 x\n2 x\n3 y\n4 y\n",
         rows((4, 1, f"groklog {THREE} '^%{{A}}$' log"), *((2, 2, f"groklog {THREE} '^%{{{name}}}$' log") for name in "XY"))
         + f"these patterns match 4 of 4 lines (2 + 2 + 0):\ngroklog {THREE} -e '^%{{X}}$' -e '^%{{Y}}$' -e '^%{{A}}$' log\n",
         words=[*shlex.split(THREE), "log"]),
    Case("a format that two lines of a hundred and fifty have", "fewer than one in fifty are too few for it to be in the command",
         KLOG.format(1, 1) + KLOG.format(2, 2) + "".join(f"{n} opened by card {n * 7}\n" for n in range(148)),
         rows((2, 6, "groklog '^%{KLOG}$' log")) + proposal(148, "groklog '^%{INT:number:int} opened by card %{INT:card:int}$' log", of=150)),
    Case("a form that one message of syslog has", "one is too few for a pattern of its own",
         "".join(f"Nov 28 06:25:0{n} web1 slapd[12]: {text}\n"
                 for n, text in enumerate(["conn=1 closed", "conn=2 open", "conn=3 lost", "Started 3 5"])),
         rows((4, 5, "groklog '^%{SYSLOGLINE}$' log"), (3, 6, "groklog '^%{SYSLOGBASE} conn=%{INT:conn:int} %{WORD:word}$' log"))
         + "these patterns match 4 of 4 lines (3 + 1):\n"
         "groklog -e '^%{SYSLOGBASE} conn=%{INT:conn:int} %{WORD:word}$' -e '^%{SYSLOGLINE}$' log\n"),
    Case("nine lines of ten that begin with a format and go on", "the tenth may begin with something else",
         "".join(COMBINED.format(n, n, n) + f" 0.0{n}\n" for n in range(1, 10)) + "odd one\n",
         rows((9, 12, "groklog '^%{COMBINEDAPACHELOG} %{NUMBER:number:float}$' log"))),
    Case("four forms in one log", "three of them get a pattern", "[a]\n(b)\n{c}\n<d>\n[e]\n(f)\n{g}\n<h>\n",
         proposal(6, r"groklog -e '^\[%{WORD:word}\]$' -e '^\(%{WORD:word}\)$' -e '^\{%{WORD:word}\}$' log", of=8, shares=[2, 2, 2])),
    Case("three names above lines between blanks", "they are too few to be names of columns",
         "port bytes action\n443 840 ACCEPT\n80 12 REJECT\n22 9 ACCEPT\n",
         proposal(4, "groklog -e '^%{INT:number:int} %{INT:number2:int} %{WORD:word}$' -e '^port bytes action$' log", shares=[3, 1])),
    Case("names above lines of which one of twenty has fewer values", "they are the keys of the columns",
         "version port bytes action\n" + "".join(f"2 {n} {n * 7} ACCEPT\n" for n in range(10, 28)) + "3 29\n",
         proposal(18, "groklog '^%{INT:version:int} %{INT:port:int} %{INT:bytes:int} %{NOTSPACE:action}$' log", of=20)),
    Case("names after #fields", "they are the keys of the columns, between tabs",
         "#separator \\x09\n#fields\tts\tid.orig_h\tproto\tbytes\n06:25:01\t192.0.2.1\ttcp\t7\n06:25:02\t192.0.2.2\tudp\t9\n",
         proposal(2, r"groklog $'^%{TIME:ts}\x09%{IP:id.orig_h}\x09%{DATA:proto}\x09%{INT:bytes:int}$' log")),
    Case("a line of as many values above the names", "it is no text, so they are no names of columns", "w,x,y,z\n" + DOORS,
         "each line has 4 values, which mlr reads, too:\nmlr --icsv --implicit-csv-header --ojson cat log\n"
         + proposal(5, "groklog '^%{CSVVALUE:field},%{CSVVALUE:field2},%{CSVVALUE:field3},%{CSVVALUE:field4}$' log")),
    Case("a % before a time", "no event begins so", "".join(f"% 06:25:0{n} INFO a\n  more\n" for n in range(1, 4)),
         proposal(6, "groklog -e '^[%] %{TIME:timestamp} %{LOGLEVEL:level} a$' -e '^ +more$' log", shares=[3, 3])),
    Case("lines of one word in capitals", "they are no parts of events",
         "".join(f"START\n2026-11-28 06:25:0{n} INFO copied {n * 3}\n" for n in range(1, 4)),
         proposal(6, "groklog -e '^START$' -e '^%{TIMESTAMP_ISO8601:timestamp} %{LOGLEVEL:level} copied %{INT:copied:int}$' log",
                  shares=[3, 3])),
    Case("lines that begin with a digit beside lines with a time", "they may have a time in another form, so they are no parts of events",
         "".join(f"06:25:0{n} INFO a\n{n} more\n" for n in range(1, 4)),
         proposal(6, "groklog -e '^%{TIME:timestamp} %{LOGLEVEL:level} a$' -e '^%{INT:number:int} more$' log", shares=[3, 3])),
    Case("one line with a time", "one is too few to begin events", "2026-11-28 06:25:01 INFO a\n  more\n  more\n",
         proposal(3, "groklog -e '^ +more$' -e '^%{TIMESTAMP_ISO8601:timestamp} %{LOGLEVEL:level} a$' log", shares=[2, 1])),
    Case("one line of twenty that has a time further on", "it is a part of an event",
         "".join(f"06:25:{n} INFO a\n" for n in range(10, 22)) + "  more\n" * 7 + "  done 7 at 06:25:30\n",
         "the lines are parts of 12 events\n" + proposal(
             12, r"groklog --start '^%{TIME}' '^%{TIME:timestamp} %{LOGLEVEL:level} a(?:\n(?<more>(?s:.*)))?$' log", unit="events")),
    Case("two lines of twenty that have a time further on", "they are too many to be parts of events",
         "".join(f"06:25:{n} INFO a\n" for n in range(10, 22)) + "  more\n" * 6 + "  done 7 at 06:25:30\n" * 2,
         proposal(18, "groklog -e '^%{TIME:timestamp} %{LOGLEVEL:level} a$' -e '^ +more$' log", of=20, shares=[12, 6])),
    Case("two characters with which the lines after blank lines begin", "they are enough to begin events", "* a 1\nx\n\n* b 2\ny\n",
         "the lines are parts of 2 events\n" + proposal(
             2, r"groklog --start '^\* ' '^\* %{WORD:word} %{INT:number:int}(?:\n(?<more>(?s:.*)))?$' log", unit="events")),
    Case("one character with which the lines after blank lines begin", "it is too little to begin events", "*a 1\n more\n\n*b 2\n more\n",
         proposal(4, "groklog -e '^%{NOTSPACE:field} %{INT:number:int}$' -e '^ more$' log", shares=[2, 2])),
    Case("lines after blank lines whose second words begin alike", "events begin with whole words", "job alice\nx\n\njob adam\ny\n",
         "the lines are parts of 2 events\n" + proposal(
             2, r"groklog --start '^job ' '^job %{WORD:job}(?:\n(?<more>(?s:.*)))?$' log", unit="events")),
    Case("a thousand lines in two files, and one more", "it isn't read", DOOR.format(1, 1) + "odd\n",
         proposal(1000, "groklog '^door %{INT:door:int} opened by card %{INT:card:int}$' first log"),
         words=["first", "log"], more_files={"first": "".join(DOOR.format(n, n) for n in range(999))}),
    Case("values between bars", "no other program is named", "1|2|3|x\n4|5|6|y\n",
         proposal(2, r"groklog '^%{INT:number:int}\|%{INT:number2:int}\|%{INT:number3:int}\|%{NOTSPACE:field}$' log")),
    Case("three values between commas", "they are too few for another program", "1,2,x\n3,4,y\n",
         proposal(2, "groklog '^%{INT:number:int},%{INT:number2:int},%{WORD:word}$' log")),
    Case("a blank after the last of some commas", "it is that of a sentence", "1,2,3, 4\n5,6,7, 8\n",
         proposal(2, "groklog '^%{INT:number:int},%{INT:number2:int},%{INT:number3:int}, %{INT:number4:int}$' log")),
    Case("names of values of which only the last column has numbers", "they are names",
         "name,door,state,id\nbob,front,open,7\neve,back,shut,8\n",
         "each line has 4 values, after their names in the first line, which mlr reads:\nmlr --icsv --ojson cat log\n"),
    Case("a column that has numbers in some lines alone", "the words above it needn't be names",
         "name,door,state,id\nbob,front,open,7\neve,back,shut,\n",
         "each line has 4 values, which mlr reads, too:\nmlr --icsv --implicit-csv-header --ojson cat log\n"
         + proposal(3, "groklog '^%{CSVVALUE:field},%{CSVVALUE:field2},%{CSVVALUE:field3},%{CSVVALUE:field4}$' log")),
    Case("values whose names are missing in one line", "mlr reads them without names", "a=1;b=2;c=3;d=4\na=5;b=6;7;8\n",
         "each line has 4 values, which mlr reads, too:\nmlr --icsv --ifs ';' --implicit-csv-header --ojson cat log\n"
         + proposal(2, "groklog '^a=%{INT:a:int};b=%{INT:b:int};%{DATA:field};%{NOTSPACE:field2}$' log")),
    Case("names of values with a point, a hyphen and `_`", "they are names",
         "h.status=1;user-id=2;a_b=3;d=4\nh.status=5;user-id=6;a_b=7;d=8\n",
         "each line has 4 values after their names, which mlr reads, too:\nmlr --idkvp --ifs ';' --ojson cat log\n"
         + proposal(2, r"groklog '^h\.status=%{INT:h.status:int};user\-id=%{INT:user-id:int};a_b=%{INT:a_b:int};d=%{INT:d:int}$' log")),
    Case("4096 bytes that end within a character", "what comes after them is looked at as a whole, as is the character",
         "door 1 " + "\u00e9" * 3000 + " x\ndoor 2 y x\n", proposal(2, "groklog '^door %{INT:door:int} %{GREEDYDATA:message}$' log")),
    *(Case(f"{count} numbers in each line", why, "".join(" ".join(str(n + m) for m in range(count)) + "\n" for n in (1, 2)),
           proposal(2, "groklog '^%{INT:number:int}" + "".join(f" %{{INT:number{n}:int}}" for n in range(2, 51)) + f"{rest}$' log"))
      for count, why, rest in [(50, "they are 99 columns with the blanks", ""),
                               (51, "what comes after a hundred columns is the message", " %{GREEDYDATA:message}")]),
    Case("a level before a slash", "what is after it is the thread",
         "[06:25:01] [INFO/main]: bob joined\n[06:25:02] [WARN/worker-1]: can't keep up\n[06:25:03] [INFO/main]: hello\n",
         proposal(3, r"groklog '^\[%{TIME:timestamp}\] \[%{LOGLEVEL:level}/%{DATA:thread}\]: %{GREEDYDATA:message}$' log")),
    Case("addresses of all kinds", "each has the key of its kind", "".join(
        f"550e8400-e29b-41d4-a716-44665544000{n} 00:1b:44:11:3a:b{n} bob{n}@example.com http://example.com/{n} 2001:db8::{n} on Mon of Nov\n"
        for n in (1, 2)), proposal(
            2, "groklog '^%{UUID:uuid} %{MAC:mac} %{EMAILADDRESS:email} %{URI:uri} %{IP:ip} on %{DAY:day} of %{MONTH:month}$' log")),
    *(Case(f"at {time.format(1)}", "it is one time", "".join(f"at {time.format(n)} * up {n}\n" for n in range(1, 4)),
           proposal(3, rf"groklog '^at %{{{name}:timestamp}} \* up %{{INT:up:int}}$' log")) for time, name in [
        ("Sat, 28 Nov 2026 06:25:0{} +0000", "DATESTAMP_RFC2822"), ("Sat Nov 28 2026 06:25:0{} UTC", "DATESTAMP_RFC822"),
        ("Sat Nov 28 06:25:0{} UTC 2026", "DATESTAMP_OTHER"), ("Sat Nov 28 06:25:0{} 2026", "TIMESTAMP_CTIME"),
        ("28/Nov/2026:06:25:0{}.123", "HAPROXYDATE"), ("Nov 28, 2026 6:25:0{} AM", "CATALINA_DATESTAMP"),
        ("2026-11-28 06:25:0{} UTC", "POSTGRESQLTIME"), ("Nov 28 06:25:0{}", "SYSLOGTIMESTAMP"),
        ("2026/11/28 06:25:0{}", "TIMESTAMP_SLASHES"), ("20261128 06:25:0{}", "DATESTAMP_COMPACT")]),
    Case("units of all kinds", "each number has the key of its unit", "".join(
        f"{n}ns {n}us {n}s {n}min {n}B {n}kB {n}GB {n}KiB {n}MiB {n}GiB\n" for n in (1, 2)), proposal(
            2, "groklog '^" + " ".join(f"%{{INT:{key}:int}}{unit}" for unit, key in [
                ("ns", "duration_ns"), ("us", "duration_us"), ("s", "duration_s"), ("min", "duration_min"), ("B", "bytes"), ("kB", "size_kb"),
                ("GB", "size_gb"), ("KiB", "size_kib"), ("MiB", "size_mib"), ("GiB", "size_gib")]) + "$' log")),
    Case("a small word before a number, and its unit after a blank", "the unit is the key", "done in 3 seconds\ndone in 5 seconds\n",
         proposal(2, "groklog '^done in %{INT:duration_s:int} seconds$' log")),
    Case("a plural after a number", "it is the key, and the word before it isn't", "copied 3 files\ncopied 5 files\n",
         proposal(2, "groklog '^copied %{INT:files:int} files$' log")),
    Case("a host, a program and a process after a time", "they have keys of their own",
         "06:25:01 web1 cron[12]: job 1\n06:25:02 web1 atd[13]: job 2\n",
         proposal(2, r"groklog '^%{TIME:timestamp} %{NOTSPACE:host} %{WORD:program}\[%{INT:pid:int}\]: job %{INT:job:int}$' log")),
    Case("dotted names in lines without a level", "they are no loggers", "06:25:01 shop.orders up 1\n06:25:02 shop.mail up 2\n",
         proposal(2, "groklog '^%{TIME:timestamp} %{NOTSPACE:field} up %{INT:up:int}$' log")),
    Case("names of hosts in lines with a level", "they are no loggers",
         "06:25:01 INFO web.example.com: up 1\n06:25:02 INFO db.example.com: up 2\n",
         proposal(2, "groklog '^%{TIME:timestamp} %{LOGLEVEL:level} %{DATA:field}: up %{INT:up:int}$' log")),
    Case("loggers of which one has no dot", "one dotted name is enough", "06:25:01 INFO app.Main: up 1\n06:25:02 INFO root: up 2\n",
         proposal(2, "groklog '^%{TIME:timestamp} %{LOGLEVEL:level} %{DATA:logger}: up %{INT:up:int}$' log")),
    Case("names of threads without brackets", "they are words as others are", "06:25:01 INFO main done 1\n06:25:02 INFO worker done 2\n",
         proposal(2, "groklog '^%{TIME:timestamp} %{LOGLEVEL:level} %{WORD:word} done %{INT:done:int}$' log")),
    Case("names of threads in round brackets", "they are threads", "06:25:01 INFO (main) done 1\n06:25:02 INFO (worker-1) done 2\n",
         proposal(2, r"groklog '^%{TIME:timestamp} %{LOGLEVEL:level} \(%{DATA:thread}\) done %{INT:done:int}$' log")),
    *(Case(f"paths of which one is {text}", "not all are paths, so the word before them is the key", f"get /a 1\nget {text} 2\nget /b 3\n",
           proposal(3, "groklog '^get %{NOTSPACE:get} %{INT:number:int}$' log")) for text in ("-", "x.py")),
    Case("seconds since 1970", "they are a time at the beginning, and nowhere else", "1772856301 1772856401 x 1\n1772856302 1772856402 x 2\n",
         proposal(2, "groklog '^%{INT:timestamp:int} %{INT:number:int} x %{INT:number2:int}$' log")),
    Case("a name before a value in brackets", "it is the key of the value", "to=<bob> from=[7] x\nto=<eve> from=[8] x\n",
         proposal(2, r"groklog '^to=<%{WORD:to}> from=\[%{INT:from:int}\] x$' log")),
    Case("an address in brackets and a port", "the number after the address is the port",
         "".join(f"from [2001:db8::{n}]:80{n} x\n" for n in (1, 2)),
         proposal(2, r"groklog '^from \[%{IP:ip}\]:%{INT:port:int} x$' log")),
    Case("a number after a protocol", "it is the status", "GET /a HTTP/1.1 201\nPOST /b HTTP/1.0 404\n",
         proposal(2, "groklog '^%{WORD:method} %{NOTSPACE:path} %{NOTSPACE:protocol} %{INT:status:int}$' log")),
    Case("a word that ends with a point", "it is the same on other days", "door 1 opened.\ndoor 2 opened.\n",
         proposal(2, r"groklog '^door %{INT:door:int} opened\.$' log")),
    Case("blanks in brackets", "they don't end what differs", "user (a b) 1\nuser bob 2\n",
         proposal(2, "groklog '^user %{DATA:user} %{INT:number:int}$' log")),
    Case("a bracket that isn't closed", "the next blank ends what differs", "user (a 1\nuser bob 2\n",
         proposal(2, "groklog '^user %{NOTSPACE:user} %{INT:number:int}$' log")),
    Case("a file whose name begins with - before another", "it is no option", DOOR.format(1, 1),
         proposal(2, "groklog '^door %{INT:door:int} opened by card %{INT:card:int}$' -- -a.log log"),
         words=["--", "-a.log", "log"], more_files={"-a.log": DOOR.format(2, 2)}),
    Case("the standard input before a file", "it is no option", DOOR.format(1, 1) + DOOR.format(2, 2),
         proposal(2, "groklog '^door %{INT:door:int} opened by card %{INT:card:int}$' - log"), words=["-", "log"]),
    Case("a definition of one's own that finds what a known one finds", "it is listed, and the known one isn't",
         KLOG.format(1, 1) + KLOG.format(2, 2), rows((2, 6, "groklog -D 'MINE=%{KLOG}' '^%{MINE}$' log")),
         words=["-D", "MINE=%{KLOG}", "log"]),
    Case("lines that aren't UTF-8, with --lossy", "they count, and the command has it", b"door 1 by \xff\ndoor 2 by eve\n",
         proposal(2, "groklog --lossy '^door %{INT:door:int} by %{NOTSPACE:field}$' log"), words=["--lossy", "log"]),
    Case("one blank before each line, and more before some", "a longer number has fewer of them", "".join(f"{n:>3} x\n" for n in (5, 12, 99)),
         proposal(3, "groklog '^ *%{INT:number:int} x$' log")),
    Case("one blank before each line", "it is one in other lines, too", " 5 x\n 7 x\n", proposal(2, "groklog '^ %{INT:number:int} x$' log")),
    Case("seconds since 1970 with a fraction", "they are a time anywhere", "job 1772856301.5 x\njob 1772856302.7 x\n",
         proposal(2, "groklog '^job %{NUMBER:timestamp:float} x$' log")),
    *(Case(f"a number of {count} digits at the beginning", "it is no time", f"{'7' * count} x\n{'8' * count} x\n",
           proposal(2, "groklog '^%{INT:number:int} x$' log")) for count in (9, 11)),
    Case("names in quotes, and of marks alone", "the quotes are no parts of the keys",
         'Report of the doors\n"at","the door",?,ms\n' + DOORS[18:],
         proposal(3, "groklog '^%{TIME:at},%{INT:the_door:int},%{CSVVALUE:field},%{INT:ms:int}$' log", of=5)),
    Case("names between bars below a line of text", "they are the keys of the columns", "Report of the doors\n" + DOORS.replace(",", "|"),
         proposal(3, r"groklog '^%{TIME:time}\|%{INT:door:int}\|%{DATA:user}\|%{INT:ms:int}$' log", of=5)),
    Case("brackets in brackets", "the last of them ends what differs", "[a [b] c] done 1\n[d] done 2\n",
         proposal(2, r"groklog '^\[%{DATA:field}\] done %{INT:done:int}$' log")),
    Case("pairs that follow in another order", "they are pairs up to the end of the line",
         "up 06:25:01 a=1 b=2\nup 06:25:02 b=3 a=4\nup 06:25:03 c=5\n",
         proposal(3, "groklog '^up %{TIME:timestamp} %{GREEDYDATA:pairs}$' log")),
    Case("pairs, and in one line something else", "what follows is no more than a message",
         "up 06:25:01 a=1 b=2\nup 06:25:02 b=3 x\nup 06:25:03 c=5\n",
         proposal(3, "groklog '^up %{TIME:timestamp} %{GREEDYDATA:message}$' log")),
    Case("numbers with a + at their front", "a number would lose it", "temp +5 ok\ntemp -6 ok\n",
         proposal(2, "groklog '^temp %{NUMBER:temp} ok$' log")),
    *(Case(f"{names[0]} and {names[1]} in brackets", why, "".join(f"06:25:0{n} INFO [{name}] done {n}\n" for n, name in enumerate(names, 1)),
           proposal(2, rf"groklog '^%{{TIME:timestamp}} %{{LOGLEVEL:level}} \[%{{DATA:{key}}}\] done %{{INT:done:int}}$' log"))
      for names, key, why in [(["worker.3", "worker.4"], "thread", "with numbers at their ends, they are threads"),
                              (["shop.worker", "mail.worker"], "logger", "with words at their ends, they are loggers")]),
    Case("lines of nothing but blanks", "they are blank lines, after which events begin", "* a 1\nx\n \t\n* b 2\ny\n",
         "the lines are parts of 2 events\n" + proposal(
             2, r"groklog --start '^\* ' '^\* %{WORD:word} %{INT:number:int}(?:\n(?<more>(?s:.*)))?$' log", unit="events")),
    Case("a word alone in more lines than a time", "a pattern is sought for the other lines, too", "a\nb\nc\n06:25:01 up 1\n06:25:02 up 2\n",
         proposal(2, "groklog '^%{TIME:timestamp} %{NOTSPACE:field} %{INT:number:int}$' log", of=5)),
    *(Case(f"{count} forms of lines without a pattern before one that has one", "six forms are looked at",
           "".join(form.format(name) + "\n" for form in FORMS[:count] for name in "ab") + "06:25:01 up 1\n06:25:02 up 2\n", report)
      for count, report in [(5, proposal(2, "groklog '^%{TIME:timestamp} %{NOTSPACE:field} %{INT:number:int}$' log", of=12)),
                            (6, "no definition matches more than half of the 14 lines\n"
                                "the lines have too little in common for a pattern\n")]),
    *(Case(f"another word in the brackets of one line of {count}", "no line is left out for what stands in brackets",
           "".join(f"06:25:{n} [worker {n}] go {n}\n" for n in range(10, 9 + count)) + "06:25:59 [main] go 59\n",
           proposal(count, rf"groklog '^%{{TIME:timestamp}} \[%{{DATA:thread}}\] go %{{INT:go:int}}$' log")) for count in (19, 20, 40)),
    *(Case(f"lines of {2 * count} tokens", why, "".join("(" + " ".join(str(n) for n in range(first, first + count)) + "\n" for first in (1, 2)),
           proposal(2, r"groklog '^\(%{INT:number:int}"
                       + "".join(f" %{{INT:number{n}:int}}" for n in range(2, min(count, 50) + 1)) + end + "$' log"))
      for count, end, why in [(50, "", "each of them gets a column"), (51, "%{GREEDYDATA:message}", "the last two are a message")]),
    Case("a value that one line lacks", "it is empty there", "id= user 5\nid=7 user 6\nid=a-b user 7\n",
         proposal(3, "groklog '^id=%{DATA:id} user %{INT:user:int}$' log")),
    Case("a value that one line lacks, after others", "it is empty there",
         "up 06:25:01 by= for 3 s\nup 06:25:02 by=7 for 4 s\nup 06:25:03 by=a-b for 5 s\n",
         proposal(3, "groklog '^up %{TIME:timestamp} by=%{DATA:by} for %{INT:duration_s:int} s$' log")),
    Case("a last value between semicolons that one line lacks", "it is empty there", "1;2;3;x-y\n4;5;6;\n7;8;9;z\n",
         "each line has 4 values, which mlr reads, too:\nmlr --icsv --ifs ';' --implicit-csv-header --ojson cat log\n"
         + proposal(3, "groklog '^%{INT:number:int};%{INT:number2:int};%{INT:number3:int};%{DATA:field}$' log")),
    Case("brackets with nothing in them in one line", "what they have is empty there",
         "".join(f"06:25:0{n} [{name}] done {n}\n" for n, name in enumerate(["", "bob", "eve smith"], 1)),
         proposal(3, r"groklog '^%{TIME:timestamp} \[%{DATA:field}\] done %{INT:done:int}$' log")),
    Case("a name after a known format that is a key of it", "no key comes twice",
         "".join(COMBINED.format(n, n, n) + f" bytes={n * 100} ms={n}\n" for n in range(1, 5)),
         rows((4, 13, "groklog '^%{COMBINEDAPACHELOG} bytes=%{INT:bytes2:int} ms=%{INT:ms:int}$' log"))),
    *(Case(f"the names {names[0]}, {names[1]} and {names[2]}", "no key comes twice",
           "".join(" ".join(f"{name}={n * m}" for m, name in enumerate(names, 2)) + "\n" for n in (1, 2)),
           proposal(2, "groklog '^" + " ".join(f"{name}=%{{INT:{key}:int}}" for name, key in zip(names, keys)) + "$' log"))
      for names, keys in [(["a", "a", "a"], ["a", "a2", "a3"]), (["a", "a", "a2"], ["a", "a2", "a22"]), (["a2", "a", "a"], ["a2", "a", "a3"])]),
    Case("a header of two lines before events", "it is an event of its own, and those after it are events all the same",
         "Log opened\nby door control\n" + "".join(f"06:25:{n} ERROR a\n  more\n" for n in range(10, 20)),
         "the lines are parts of 11 events\n" + proposal(
             10, r"groklog --start '^%{TIME}' '^%{TIME:timestamp} %{LOGLEVEL:level} a(?:\n(?<more>(?s:.*)))?$' log", of=11, unit="events")),
    Case("a header of three lines and a blank one before events", "it is an event of its own, and those after it are events all the same",
         "Log opened\nby door control\nversion two\n\n" + "".join(f"06:25:{n} ERROR a\n  more\n" for n in range(10, 20)),
         "the lines are parts of 11 events\n" + proposal(
             10, r"groklog --start '^%{TIME}' '^%{TIME:timestamp} %{LOGLEVEL:level} a(?:\n(?<more>(?s:.*)))?$' log", of=11, unit="events")),
    Case("a header that begins with words in capitals before events", "it is an event of its own, and those after it are events all the same",
         "LOG opened\nLOG of doors\n" + "".join(f"06:25:{n} ERROR a\n  more\n" for n in range(10, 20)),
         "the lines are parts of 11 events\n" + proposal(
             10, r"groklog --start '^%{TIME}' '^%{TIME:timestamp} %{LOGLEVEL:level} a(?:\n(?<more>(?s:.*)))?$' log", of=11, unit="events")),
    Case("one line that ends in a carriage return, with --crlf", "the command has it, so the line matches",
         DOOR.format(1, 1).replace("\n", "\r\n") + DOOR.format(2, 2) + DOOR.format(3, 3),
         proposal(3, "groklog --crlf '^door %{INT:door:int} opened by card %{INT:card:int}$' log"), words=["--crlf", "log"]),
    Case("events whose lines end in carriage returns, with --crlf", "the command has it",
         "".join(f"06:25:0{n} ERROR a\r\n  more\r\n" for n in range(3)), "the lines are parts of 3 events\n" + proposal(
             3, r"groklog --crlf --start '^%{TIME}' '^%{TIME:timestamp} %{LOGLEVEL:level} a(?:\n(?<more>(?s:.*)))?$' log", unit="events"),
         words=["--crlf", "log"]),
    Case("a unit after a blank, before a number", "it names no number", "took 12 ms 3 done\ntook 13 ms 4 done\n",
         proposal(2, "groklog '^took %{INT:took:int} ms %{INT:number:int} done$' log")),
]
