"""Makes logs of programs that the common definitions know nothing of, line by line, as such programs write them."""
from random import Random


def word(rng, count=6):
    return "".join(rng.choice("abcdefghijklmnopqrstuvwxyz") for _ in range(rng.randint(2, count)))


def clock(rng):
    return f"{rng.randint(0, 23):02}:{rng.randint(0, 59):02}:{rng.randint(0, 59):02}"


def address(rng):
    return ".".join(str(rng.randint(1, 250)) for _ in range(4))


def sentence(rng):
    """Free text, with numbers, names and marks here and there."""
    forms = [
        lambda: f"{word(rng)} {word(rng)} of {word(rng)}",
        lambda: f"received block blk_{rng.randint(1, 10**9)} of size {rng.randint(1, 10**6)} from /{address(rng)}",
        lambda: f"{word(rng)}: can't open '{word(rng)}' ({rng.choice(['no such file', 'permission denied'])})",
        lambda: f"[{word(rng)}] took {rng.randint(1, 900)} ms, {rng.randint(0, 9)} retries",
        lambda: f"{word(rng)}={rng.randint(0, 99)} {word(rng)}=\"{word(rng)} {word(rng)}\"",
        lambda: word(rng),
        lambda: f"{rng.randint(1, 9)} of {rng.randint(9, 99)} {word(rng)}s are ready",
    ]
    return rng.choice(forms)()


def level(rng):
    return rng.choice(["INFO", "INFO", "INFO", "WARN", "ERROR", "DEBUG"])


def storage(rng):
    part = rng.choice(["dfs.DataNode$PacketResponder", "dfs.FSNamesystem", "dfs.DataNode$DataXceiver", "dfs.DataBlockScanner"])
    return f"081109 {rng.randint(200000, 235959)} {rng.randint(1, 999)} {level(rng)} {part}: {sentence(rng)}"


def coordinator(rng):
    thread = rng.choice(["main:QuorumPeerConfig@101", "QuorumPeer[myid=1]/0:0:0:0:0:0:0:0:2181:FastLeaderElection@774",
                         f"NIOServerCxn.Factory:0.0.0.0/0.0.0.0:2181:NIOServerCnxnFactory@{rng.randint(1, 999)}",
                         f"/{address(rng)}:3888:QuorumCnxManager$Listener@493"])
    return f"2026-03-07 {clock(rng)},{rng.randint(0, 999):03} - {level(rng):5} [{thread}] - {sentence(rng)}"


def supercomputer(rng):
    node = f"R{rng.randint(0, 99):02}-M{rng.randint(0, 1)}-N{rng.randint(0, 9)}" + rng.choice(["", "-C:J12-U11", "-I:J18-U01"])
    time = f"2026-03-07-{clock(rng).replace(':', '.')}.{rng.randint(0, 999999):06}"
    alert = rng.choice(["-", "-", "-", "APPREAD", "KERNDTLB"])
    return (f"{alert} {rng.randint(1117838570, 1117999999)} 2026.03.{rng.randint(1, 28):02} {node} {time} {node} RAS "
            f"{rng.choice(['KERNEL', 'APP'])} {rng.choice(['INFO', 'FATAL'])} {sentence(rng)}")


def phone(rng):
    tag = rng.choice(["WindowManager", "PowerManagerService", "AudioTrack", "PhoneStatusBar", "TextView"])
    return (f"03-17 {clock(rng)}.{rng.randint(0, 999):03} {rng.randint(100, 29999):>5} {rng.randint(100, 29999):>5} "
            f"{rng.choice('DVIWE')} {tag}: {sentence(rng)}")


def cloud(rng):
    request = "-".join(f"{rng.getrandbits(bits):0{bits // 4}x}" for bits in (32, 16, 16, 16, 48))
    ids = rng.choice([f"{rng.getrandbits(128):032x} {rng.getrandbits(128):032x} - - -", "- - - - -"])
    return (f"nova-api.log.1 2026-03-07 {clock(rng)}.{rng.randint(0, 999):03} {rng.randint(1000, 32000)} {level(rng)} "
            f"nova.{rng.choice(['osapi_compute.wsgi.server', 'metadata.wsgi.server', 'compute.manager'])} "
            f"[req-{request} {ids}] {sentence(rng)}")


def compute(rng):
    part = rng.choice(["executor.Executor", "storage.BlockManager", "python.PythonRunner", "rdd.HadoopRDD"])
    return f"17/06/{rng.randint(1, 30):02} {clock(rng)} {level(rng)} {part}: {sentence(rng)}"


def proxy(rng):
    program = rng.choice(["chrome.exe", "QQ.exe", "git-remote-https.exe"])
    target = f"{word(rng)}.example.com:{rng.choice([80, 443, 5070])}"
    what = rng.choice(["open through proxy proxy.example.org:5070 HTTPS",
                       f"close, {rng.randint(0, 9999)} bytes sent, {rng.randint(0, 9999)} bytes received, lifetime 00:0{rng.randint(0, 9)}"])
    return f"[10.30 {clock(rng)}] {program} - {target} {what}"


def steps(rng):
    part = rng.choice(["Step_LSC", "Step_StandReportReceiver", "Step_SPUtils", "Step_ExtSDM"])
    return f"20171223-{rng.randint(0, 23)}:{rng.randint(0, 59)}:{rng.randint(0, 59)}:{rng.randint(0, 999)}|{part}|30002312|{sentence(rng)}"


def nodes(rng):
    return (f"{rng.randint(1, 999999)} {rng.choice(['node', 'gige', 'Interconnect'])}-{rng.randint(0, 255)} "
            f"{rng.choice(['unix.hw', 'switch_module', 'action'])} {rng.choice(['state_change.unavailable', 'error', 'start'])} "
            f"{rng.randint(1077804742, 1177804742)} 1 {sentence(rng)}")


def web(rng):
    query = rng.choice(["-", f"id={rng.randint(1, 999)}", f"q={word(rng)}&page={rng.randint(1, 9)}"])
    user = rng.choice(["-", "-", word(rng)])
    agent = rng.choice(["Mozilla/5.0+(Windows+NT+10.0)", "curl/8.5.0", "-"])
    return (f"2026-03-07 {clock(rng)} 10.0.0.7 {rng.choice(['GET', 'POST', 'HEAD'])} /{word(rng)}/{word(rng)} {query} 443 {user} "
            f"{address(rng)} {agent} - {rng.choice([200, 304, 404, 500])} {rng.randint(1, 9000)}")


def servicing(rng):
    return f"2026-03-07 {clock(rng)}, {rng.choice(['Info ', 'Error'])}                 {rng.choice(['CBS', 'CSI'])}    {sentence(rng)}"


def packages(rng):
    name = f"{word(rng)}:{rng.choice(['amd64', 'all'])} {rng.randint(0, 9)}.{rng.randint(0, 99)}-{rng.randint(1, 9)}"
    state = rng.choice(["installed", "unpacked", "half-configured"])
    what = rng.choice([f"state {state} {name}", f"fetch {name} <none>", f"register {name} <none>", f"cleanup {name}"])
    return f"2026-03-07 {clock(rng)} {what}"


def queue(rng):
    return (f"[2026-03-07 {clock(rng)},{rng.randint(0, 999):03}] (worker-{rng.randint(1, 16)}) "
            f"{rng.choice(['WARNING', 'INFO'])}: queue={word(rng)} size={rng.randint(0, 5000)} lag={rng.randint(0, 99) / 10}s")


def balancer(rng):
    host = rng.choice([address(rng), address(rng), "2001:db8::5"])
    return (f"{host} - {rng.choice(['-', word(rng)])} [07/Mar/2026:{clock(rng)} +0000] \"GET /{word(rng)} HTTP/1.1\" "
            f"{rng.choice([200, 404])} {rng.randint(0, 9999)} \"-\" \"{rng.choice(['curl/8.5.0', 'Mozilla/5.0 (X11; Linux)'])}\" "
            f"{rng.randint(1, 9999)} {rng.randint(0, 900)}ms \"{word(rng)}@docker\" \"http://{address(rng)}:80\"")


def traces(rng):
    """A log in which a third of the lines are parts of stack traces."""
    return rng.choice([
        lambda: f"2026-03-07T{clock(rng)}.{rng.randint(0, 999):03}Z|{word(rng)}|{level(rng)}|{sentence(rng)}",
        lambda: f"2026-03-07T{clock(rng)}.{rng.randint(0, 999):03}Z|{word(rng)}|{level(rng)}|{sentence(rng)}",
        lambda: f"    {rng.randint(1, 99)}) {word(rng)}::{word(rng)} in {word(rng)}.cpp:{rng.randint(1, 900)}",
    ])()


def meter(rng):
    """Values between commas."""
    return f"{rng.randint(1, 9999)},{clock(rng)},{word(rng)},{rng.randint(-400, 400) / 10},{rng.choice(['ok', 'low', ''])}"


def door(rng):
    """Sentences that are always alike."""
    return f"{rng.choice(['Alice', 'Bob', 'Eve'])} opened door {rng.randint(1, 40)} with card {rng.getrandbits(32):08X} at {clock(rng)}"


FORMS = [storage, coordinator, supercomputer, phone, cloud, compute, proxy, steps, nodes, web, servicing, packages, queue, balancer,
         traces, meter, door]


def lines_of(form, count, seed=7):
    rng = Random(f"{form.__name__} {seed}")
    return [form(rng) for _ in range(count)]
