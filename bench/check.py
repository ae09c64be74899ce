#!/usr/bin/env python3
"""Time and peak memory of `mesh check` over large documents, each at a quarter, a half and the whole of its size.

    python3 bench/check.py PROGRAM [--runs N]

PROGRAM is the built `mesh` (crates/mesh/out/mesh after `rt run` or `rt ci`). Three documents are made:

  items     4,096 small items: Pods, Services, policies of the three kinds, others
  policies  8 MiB of AuthorizationPolicies whose lists have 2,048 entries
  unread    8 MiB of items of another API group, which are passed over

Beside each stands the parse alone: the same document as the one entry of a list, which is refused at its first byte
after it was parsed (`$: NotAList`). So the difference is what reading the manifests costs. The best time of the runs
and the greatest peak are told. Standard library only; Linux, for the peak memory of a child.
"""
import argparse
import json
import os
import sys
import tempfile
import time

LIMIT = 8_388_608


def item(version, kind, name, spec=None, **metadata):
    value = {"apiVersion": version, "kind": kind, "metadata": {"name": name, "namespace": "foo", **metadata}}
    if spec is not None:
        value["spec"] = spec
    return value


def small_item(index):
    name = f"item-{index}"
    security = "security.istio.io/v1"
    return [
        lambda: item("v1", "Pod", name, {"containers": [{"name": "app", "ports": [{"name": "http", "containerPort": 8080}]}]}, labels={"app": name}),
        lambda: item("v1", "Service", name, {"selector": {"app": name}, "ports": [{"name": "http", "port": 80, "targetPort": "http"}]}),
        lambda: item(security, "AuthorizationPolicy", name, {"selector": {"matchLabels": {"app": name}}, "rules": [{"from": [{"source": {"namespaces": ["foo"]}}], "to": [{"operation": {"ports": ["8080"]}}]}]}),
        lambda: item(security, "PeerAuthentication", name, {"mtls": {"mode": "STRICT"}}, creationTimestamp="2024-01-01T00:00:00Z"),
        lambda: item(security, "RequestAuthentication", name, {"jwtRules": [{"issuer": "https://issuer.example/a", "jwks": "{}"}]}),
        lambda: item("apps/v1", "Deployment", name, {"replicas": 1}),
    ][index % 6]()


def items(share):
    return [small_item(index) for index in range(int(4096 * share))]


def filled(share, make):
    """As many items as fit into the share of the limit."""
    made, size = [], 32
    while True:
        value = make(len(made))
        size += len(json.dumps(value, separators=(",", ":"))) + 1
        if size > LIMIT * share or len(made) == 4096:
            return made
        made.append(value)


def policy(index):
    principals = [f"cluster.local/ns/n{index}/sa/account-{entry}" for entry in range(2048)]
    paths = [f"/v1/{{*}}/part-{entry}/{{**}}" for entry in range(2048)]
    blocks = [f"10.{entry // 256}.{entry % 256}.0/24" for entry in range(2048)]
    rule = {
        "from": [{"source": {"principals": principals, "ipBlocks": blocks}}],
        "to": [{"operation": {"paths": paths, "ports": [str(1 + entry) for entry in range(2048)]}}],
    }
    return item("security.istio.io/v1", "AuthorizationPolicy", f"policy-{index}", {"rules": [rule]})


def unread(index):
    data = {f"key-{entry}": {"value": entry, "text": "x" * 16, "list": [1, 2, 3]} for entry in range(32)}
    return item("apps/v1", "Deployment", f"other-{index}", data)


DOCUMENTS = {
    "items": items,
    "policies": lambda share: filled(share, policy),
    "unread": lambda share: filled(share, unread),
}


def run(program, path):
    """Seconds, peak in MiB, status and standard output of one run over a file."""
    out = tempfile.TemporaryFile()
    start = time.perf_counter()
    child = os.posix_spawn(
        program,
        [program, "check"],
        os.environ,
        file_actions=[
            (os.POSIX_SPAWN_OPEN, 0, path, os.O_RDONLY, 0),
            (os.POSIX_SPAWN_DUP2, out.fileno(), 1),
            (os.POSIX_SPAWN_DUP2, out.fileno(), 2),
        ],
    )
    _, status, usage = os.wait4(child, 0)
    seconds = time.perf_counter() - start
    out.seek(0)
    return seconds, usage.ru_maxrss / 1024, os.waitstatus_to_exitcode(status), out.read().decode()


def measure(program, text, runs, status, start):
    with tempfile.NamedTemporaryFile("w", suffix=".json") as file:
        file.write(text)
        file.flush()
        found = [run(program, file.name) for _ in range(runs)]
    for _, _, ended, line in found:
        if ended != status or not line.startswith(start):
            sys.exit(f"status {ended}: {line}")
    return min(f[0] for f in found), max(f[1] for f in found), found[0][3].strip()


def main():
    parser = argparse.ArgumentParser(description=__doc__, formatter_class=argparse.RawDescriptionHelpFormatter)
    parser.add_argument("program")
    parser.add_argument("--runs", type=int, default=5)
    options = parser.parse_args()
    print("| Document | MiB | Entries | Parse, ms | `check`, ms | Ratio | Parse, MiB | `check`, MiB |")
    print("|---|---|---|---|---|---|---|---|")
    for name, make in DOCUMENTS.items():
        for share in (0.25, 0.5, 1.0):
            made = make(share)
            text = json.dumps({"kind": "List", "items": made}, separators=(",", ":"))
            whole, whole_peak, _ = measure(options.program, text, options.runs, 0, "accepted: ")
            parse, parse_peak, _ = measure(options.program, f"[{text}]", options.runs, 1, "refused: $: NotAList")
            print(
                f"| {name} | {len(text) / 2**20:.2f} | {len(made)} | {parse * 1000:.1f} | {whole * 1000:.1f} "
                f"| {whole / parse:.2f} | {parse_peak:.1f} | {whole_peak:.1f} |",
                flush=True,
            )


if __name__ == "__main__":
    main()
