#!/usr/bin/env python3
"""Time and memory of writing large listeners, up to some 9 MB.

    python3 bench/listener.py MESH CALLS [--runs N]

MESH is the built `mesh`, CALLS the built `examples_of_calls` (crates/NAME/out/NAME after `rt run` or `rt ci`). The manifests are a
Pod `foo/web`, a Service that gives it 16 TCP ports, and a policy of 64, 128, 256 and 512 rules on four ports each, the most that
selection takes: 51 chains, each with all rules. Told are the best times of the runs, in milliseconds, and the greatest peaks of memory:

  translate  the whole command, less the same command for a Pod that isn't there: selecting, building, the value, its text
  serde_json the text of the same value by serde_json alone: a line `field {"x":LISTENER}, "x"` of CALLS, less the line for a field that isn't there

Standard library only.
"""
import argparse
import json
import os
import subprocess
import sys
import tempfile
import time

SECURITY = "security.istio.io/v1"
# a long name, which stands in the name of each rule
NAME = ".".join(["some-ports-of-a-workload-that-other-workloads-ask-for"] * 2)


def item(version, kind, name, spec, **metadata):
    return {"apiVersion": version, "kind": kind, "metadata": {"name": name, "namespace": "foo", **metadata}, "spec": spec}


def manifests(rules):
    ports = [{"name": f"tcp-{index}", "port": 9000 + index} for index in range(16)]
    asked = [{"to": [{"operation": {"ports": [str(10000 + 4 * index + k) for k in range(4)]}}]} for index in range(rules)]
    items = [
        item("v1", "Pod", "web", {}, labels={"app": "web"}),
        item("v1", "Service", "web", {"selector": {"app": "web"}, "ports": ports}),
        item(SECURITY, "AuthorizationPolicy", NAME, {"action": "ALLOW", "rules": asked}),
    ]
    return json.dumps({"apiVersion": "v1", "kind": "List", "items": items}, separators=(",", ":"))


def run(words, text, runs):
    best, peak, out = None, 0, b""
    for _ in range(runs):
        with tempfile.TemporaryFile() as given, tempfile.TemporaryFile() as taken:
            given.write(text.encode())
            given.seek(0)
            begin = time.perf_counter()
            child = subprocess.Popen(words, stdin=given, stdout=taken, stderr=subprocess.DEVNULL)
            _, _, usage = os.wait4(child.pid, 0)
            took = time.perf_counter() - begin
            taken.seek(0)
            out = taken.read()
        best = took if best is None else min(best, took)
        peak = max(peak, usage.ru_maxrss)
    return best * 1000, peak / 1024, out


def main():
    parser = argparse.ArgumentParser()
    parser.add_argument("mesh")
    parser.add_argument("calls")
    parser.add_argument("--runs", type=int, default=7)
    args = parser.parse_args()
    print("| Rules | MB written | `translate`, ms | serde_json, ms | `translate`, MiB | serde_json, MiB |")
    print("|---|---|---|---|---|---|")
    for rules in (64, 128, 256, 512):
        document = manifests(rules)
        whole, peak, text = run([args.mesh, "translate", "foo/web"], document, args.runs)
        empty, _, _ = run([args.mesh, "translate", "foo/none"], document, args.runs)
        if not text.startswith(b"{"):
            sys.exit(f"no listener for {rules} rules")
        listener = text.decode().strip()
        written, wide, echoed = run([args.calls], f'field {{"x":{listener}}}, "x"\n', args.runs)
        parsed, _, _ = run([args.calls], f'field {{"x":{listener}}}, "y"\n', args.runs)
        if not echoed.decode().rstrip("\n").endswith(" => " + listener):
            sys.exit("serde_json writes another text")
        print(f"| {rules} | {len(text) / 1e6:.2f} | {whole - empty:.1f} | {written - parsed:.1f} | {peak:.1f} | {wide:.1f} |")


main()
