#!/usr/bin/env python3
"""Time of selection over large documents, each at a quarter, a half and the whole of 4,096 items.

    python3 bench/selection.py PROGRAM [--runs N]

PROGRAM is the built `examples_of_calls` (crates/examples_of_calls/out/examples_of_calls after `rt run` or `rt ci`), of
which one line is run: `select DOCUMENT, "foo", POD`. Three documents are made of one Pod `foo/web` and

  services  Services that all select it and give it the same 16 ports
  policies  AuthorizationPolicies of its namespace without a selector, in descending order of their names
  labels    AuthorizationPolicies with selectors of eight labels each, of which the last decides; the Pod has 2,048 labels

The same line for a Pod that isn't there (NoWorkload) has the start of the program, the reading of the document and its
echo in it, so the difference is what selection costs. The best time of the runs is told. Standard library only.
"""
import argparse
import json
import subprocess
import sys
import time

ITEMS = 4096
SECURITY = "security.istio.io/v1"


def item(version, kind, name, spec, **metadata):
    return {"apiVersion": version, "kind": kind, "metadata": {"name": name, "namespace": "foo", **metadata}, "spec": spec}


def services(count):
    ports = [{"name": "tcp", "port": 9000 + index} for index in range(16)]
    pod = item("v1", "Pod", "web", {}, labels={"app": "web"})
    return [pod] + [item("v1", "Service", f"s{index}", {"selector": {"app": "web"}, "ports": ports}) for index in range(count - 1)]


def policies(count):
    pod = item("v1", "Pod", "web", {}, labels={"app": "web"})
    return [pod] + [item(SECURITY, "AuthorizationPolicy", f"p{count - index:05}", {"action": "DENY"}) for index in range(count - 1)]


def labels(count):
    pod = item("v1", "Pod", "web", {}, labels={f"label-{index:05}": "yes" for index in range(2048)})
    made = [pod]
    for index in range(count - 1):
        wanted = {f"label-{(index + step * 251) % 2048:05}": "yes" for step in range(7)}
        wanted["label-of-no-pod"] = "yes"
        made.append(item(SECURITY, "AuthorizationPolicy", f"p{index:05}", {"selector": {"matchLabels": wanted}, "action": "DENY"}))
    return made


DOCUMENTS = {"services": services, "policies": policies, "labels": labels}


def measure(program, line, runs, wanted):
    best = None
    for _ in range(runs):
        start = time.perf_counter()
        ran = subprocess.run([program], input=line.encode(), capture_output=True)
        seconds = time.perf_counter() - start
        answer = ran.stdout.decode().rstrip("\n").rsplit(" => ", 1)[-1]
        if ran.returncode or not answer.startswith(wanted):
            sys.exit(f"status {ran.returncode}: {answer[:200]}")
        best = seconds if best is None else min(best, seconds)
    return best


def main():
    parser = argparse.ArgumentParser(description=__doc__, formatter_class=argparse.RawDescriptionHelpFormatter)
    parser.add_argument("program")
    parser.add_argument("--runs", type=int, default=5)
    options = parser.parse_args()
    print("| Document | MiB | Items | Without selection, ms | With, ms | Selection, ms |")
    print("|---|---|---|---|---|---|")
    for name, make in DOCUMENTS.items():
        wanted = {"services": "9000 tcp permissive; ", "policies": "other permissive", "labels": "other permissive"}[name]
        for share in (4, 2, 1):
            count = ITEMS // share
            text = json.dumps({"kind": "List", "items": make(count)}, separators=(",", ":"))
            none = measure(options.program, f'select {text}, "foo", "nope"\n', options.runs, "NoWorkload")
            whole = measure(options.program, f'select {text}, "foo", "web"\n', options.runs, wanted)
            print(
                f"| {name} | {len(text) / 2**20:.2f} | {count} | {none * 1000:.1f} | {whole * 1000:.1f} | {(whole - none) * 1000:.1f} |",
                flush=True,
            )


if __name__ == "__main__":
    main()
