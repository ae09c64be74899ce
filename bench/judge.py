#!/usr/bin/env python3
"""Time of judging a case by a large listener, beside the time of reading that listener.

    python3 bench/judge.py MESH PROGRAM [--runs N]

MESH is the built `mesh`, which translates a Pod with 16 TCP ports and an ALLOW policy of 512 rules, each with four ports
that no connection goes to: about 9 MB. PROGRAM is the built `examples_of_verdicts`, of which one line is run, thrice with other cases:

  parse   `judge LISTENER, CASE` with a port that is none: the line is parsed, refused, and printed
  read    a connection with TLS that shows no peer: the listener is read, a chain is chosen, and no filter runs
  judged  a plain connection for which no rule holds: every policy of the chain is asked

So read less parse is reading the listener, and judged less read is what the filters cost: `judge`, and `trace`, which the line
runs too. The least processor time of the runs is told, and the three lines take turns to be first. Standard library only.
"""
import argparse
import json
import resource
import subprocess

LONG = "rules-of-ports-" * 9 + "x"
CASES = {
    "parse": ({"port": 65536}, "the call has other arguments"),
    "read": ({"port": 9015, "tls": True, "alpn": ["istio"]}, "closed, chain"),
    "judged": ({"port": 9015}, "closed, chain"),
}


def document(rules):
    meta = {"name": "web", "namespace": "foo"}
    ports = [{"name": f"tcp-{index}", "port": 9000 + index} for index in range(16)]
    tested = [[str(1 + (4 * index + step) % 8000) for step in range(4)] for index in range(rules)]
    return {"kind": "List", "items": [
        {"apiVersion": "v1", "kind": "Pod", "metadata": {**meta, "labels": {"app": "web"}}},
        {"apiVersion": "v1", "kind": "Service", "metadata": meta, "spec": {"selector": {"app": "web"}, "ports": ports}},
        {"apiVersion": "security.istio.io/v1", "kind": "AuthorizationPolicy", "metadata": {**meta, "name": LONG}, "spec": {
            "action": "ALLOW", "rules": [{"to": [{"operation": {"ports": four}}]} for four in tested]}}]}


def translated(mesh, rules):
    ran = subprocess.run([mesh, "translate", "foo/web"], input=json.dumps(document(rules)).encode(), capture_output=True, check=True)
    return ran.stdout.decode().rstrip("\n")


def spent():
    used = resource.getrusage(resource.RUSAGE_CHILDREN)
    return used.ru_utime + used.ru_stime


def once(program, listener, name):
    case, wanted = CASES[name]
    line = f"judge {listener}, {json.dumps(case)}\n".encode()
    start = spent()
    ran = subprocess.run([program], input=line, capture_output=True, check=True)
    seconds = spent() - start
    answer = ran.stdout.decode().rstrip("\n").rsplit(" => ", 1)[-1]
    if not answer.startswith(wanted):
        raise SystemExit(f"{name}: {answer}")
    return 1000 * seconds


def measure(program, listener, runs):
    names = list(CASES)
    least = {name: float("inf") for name in names}
    for turn in range(runs):
        for name in names[turn % 3:] + names[:turn % 3]:
            least[name] = min(least[name], once(program, listener, name))
    return least.values()


def main():
    arguments = argparse.ArgumentParser()
    arguments.add_argument("mesh")
    arguments.add_argument("program")
    arguments.add_argument("--runs", type=int, default=15)
    chosen = arguments.parse_args()
    print("| Rules | MiB | Parse, ms | Reading, ms | Judging, ms |\n|---|---|---|---|---|")
    for rules in (128, 256, 512):
        listener = translated(chosen.mesh, rules)
        parse, read, judged = measure(chosen.program, listener, chosen.runs)
        size = len(listener) / 1048576
        print(f"| {rules} | {size:.2f} | {parse:.1f} | {read - parse:.1f} | {judged - read:.1f} |", flush=True)


if __name__ == "__main__":
    main()
