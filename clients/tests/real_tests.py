# SPDX-License-Identifier: Apache-2.0 OR MIT
"""Tests with libgbinder: its own tools, and programs of ours against its public headers."""
import os
import signal
import socket
import struct
import time

from builds import CLIENTS
from raw_tests import BEGUN, DEVICE, MOST_ROUNDS, ROUNDS, flat_cost, gone_over
from soaks import soak
from stage import Stage, expect, with_word
from suite import figures, test

HIDL = "/dev/hwbinder"
SERVICE = "hullpippin.test@1.0::IEcho/default"
# the ways in which requests of context managers are written
FORMS = ("aidl", "aidl2", "aidl3", "aidl4")
# a call by libgbinder may take so many times what the same call takes over a bare relay
TIMES_RELAY = 1.5
# modes of our client, of which the second goes over the edge
OVER_EDGE = (("call",), ("threads", "12", "200"), ("mixed",), ("oneway", "300"), ("nested", "100"), ("descriptors", "500"))


def served(build, packages, stage, *words, times=1):
    """Our test service, registered; so often, by as many processes."""
    return stage.start(packages.command(build.real("service"), *words)).wait_for("ready", 20, times)


def client(build, packages, *words):
    return packages.command(build.real("client"), *words)


def calls(title, *words):
    """A test that is one mode of our client, with one service, over a daemon whose journal is judged."""
    @test(f"libgbinder {title}", real=True)
    def play(build, packages):
        with Stage(build, journal=DEVICE) as stage:
            stage.manage()
            served(build, packages, stage, "test")
            told = stage.run(client(build, packages, "test", *words), 180)
        return f"{told}; lawful, {stage.entries} steps"


calls("call", "call")
calls("values of all kinds", "mixed")
calls("one-way calls", "oneway", "300")
calls("nested calls", "nested", "100")
calls("12 threads", "threads", "12", "200")
calls("parcels of 600000 bytes", "big", "600000")
calls("a parcel past the window", "past", "3000000")
calls("descriptors", "descriptors", "10000")


def call_by_tool(packages, stage, device, *words):
    """binder-call ends with 2 also where all went well; what it prints tells."""
    return stage.run(packages.tool("binder-call", "-d", device, *words), statuses=(0, 2))


@test("libgbinder tools", real=True)
def tools(build, packages):
    with Stage(build, journal=DEVICE) as stage:
        stage.manage()
        listed = stage.run(packages.tool("binder-list", "-d", DEVICE))
        expect("test" not in listed, f"binder-list lists what nobody registered: {listed}")
        served(build, packages, stage, "test")
        listed = stage.run(packages.tool("binder-list", "-d", DEVICE))
        expect("test" in listed.split(), f"binder-list: {listed}")
        pinged = stage.run(packages.tool("binder-ping", "-d", DEVICE, "test"))
        expect(pinged == "OK", f"binder-ping: {pinged}")
        called = call_by_tool(packages, stage, DEVICE, "-a", "test", "1", '"hello"u', "reply", "s16")
        expect(called == '"hello"U', f"binder-call: {called}")
    return f"list, ping, call; lawful, {stage.entries} steps"


def listener(socket_path):
    """The process that listens at a path."""
    with socket.socket(socket.AF_UNIX, socket.SOCK_SEQPACKET) as end:
        end.connect(socket_path)
        return struct.unpack("iII", end.getsockopt(socket.SOL_SOCKET, socket.SO_PEERCRED, 12))[0]


def ended(path):
    """Ends the daemon that listens at a path; what is left after some seconds of it and of those that live by it, which is ended then."""
    os.kill(listener(path), signal.SIGTERM)
    end = time.monotonic() + 10
    while with_word(path) and time.monotonic() < end:
        time.sleep(0.05)
    left = with_word(path)
    for pid in left:
        os.kill(pid, signal.SIGKILL)
    return left


@test("libgbinder first call", real=True, plain_only=True)
def first_call(build, packages):
    """The README's command, as it is."""
    with Stage(build) as stage:
        told = stage.run([f"{CLIENTS}/first-call"], 300, client=False)
        for command, answer in (("binder-list", "hello"), ("binder-ping", "OK")):
            printed = told.partition(f"hullpippin-run {command} ")[2].splitlines()
            expect(printed[1:2] == [answer], f"{command}: {told}")
    return "binder-list finds hullpippin-hello, and binder-ping has its answer"


@test("libgbinder by hullpippin-run", real=True)
def by_run(build, packages):
    """Daemon and managers are started with the first program, and managers end with the daemon."""
    run = f"{CLIENTS}/hullpippin-run"
    with Stage(build) as stage:
        path = f"{stage.folder}/other"
        rest = {"environment": {"HULLPIPPIN_SOCKET": path, "HULLPIPPIN_BUILD": build.out}, "client": False}
        service = stage.start([run, "--managers", *packages.command(build.real("service"), "test")], **rest)
        try:
            service.wait_for("ready", 20)
            listed = stage.run([run, *packages.tool("binder-list", "-d", DEVICE)], **rest)
            expect("test" in listed.split(), f"binder-list: {listed}")
            pinged = stage.run([run, *packages.tool("binder-ping", "-d", DEVICE, "test")], **rest)
            expect(pinged == "OK", f"binder-ping: {pinged}")
            stage.run([run, *packages.tool("binder-list", "-d", HIDL)], **rest)
            service.kill()
        finally:
            left = ended(path)
        expect(not left, f"{len(left)} processes are left after the daemon")
    return "service, binder-list, binder-ping; all ended with the daemon"


@test("libgbinder forms of requests", real=True)
def forms(build, packages):
    """The ways in which Android's versions have asked their context manager."""
    with Stage(build, journal=DEVICE) as stage:
        stage.manage()
        for form in FORMS:
            served(build, packages, stage, f"test.{form}", "0", DEVICE, form)
        for form in FORMS:
            stage.run(client(build, packages, f"test.{form}", "call"), environment={"PROTOCOL": form})
            listed = stage.run(client(build, packages, f"test.{form}", "list"), environment={"PROTOCOL": form}).split()
            expect(sorted(listed) == [f"test.{it}" for it in FORMS], f"{form} lists {listed}")
    return f"{', '.join(FORMS)}; lawful, {stage.entries} steps"


@test("libgbinder deaths", real=True)
def deaths(build, packages):
    with Stage(build, journal=DEVICE) as stage:
        stage.manage()
        service = served(build, packages, stage, "test")
        for count in range(1, 6):
            stage.run(client(build, packages, "test", "keep"))
            service.wait_for("dead", 10, count)
        waiting = [stage.start(client(build, packages, "test", "death")).wait_for("waiting") for _ in range(2)]
        service.kill()
        told = [process.finish().splitlines()[-1] for process in waiting]
        served(build, packages, stage, "test")
        stage.run(client(build, packages, "test", "call"))
    return f"the service heard of 5 clients' deaths, 2 clients {told[0]}; lawful, {stage.entries} steps"


@test("libgbinder over the edge", real=True)
def over_the_edge(build, packages):
    """A service that came before places needed more than 32 bits is called, and hears of deaths, on both sides of that; so is one that
    comes behind it."""
    with Stage(build, journal=DEVICE, daemon=build.short, daemon_environment=BEGUN, wide=True) as stage:
        stage.manage()
        service = served(build, packages, stage, "test")
        for words in OVER_EDGE:
            stage.run(client(build, packages, "test", *words), 180)
        stage.run(client(build, packages, "test", "keep"))
        service.wait_for("dead", 10)
        waiting = stage.start(client(build, packages, "test", "death")).wait_for("waiting")
        service.kill()
        waiting.finish()
        served(build, packages, stage, "test")
        stage.run(client(build, packages, "test", "call"))
        listed = stage.run(packages.tool("binder-list", "-d", DEVICE))
        expect("test" in listed.split(), f"binder-list: {listed}")
        told = gone_over(stage)
    return told


@test("libgbinder HIDL", real=True)
def hidl(build, packages):
    with Stage(build, journal=HIDL) as stage:
        stage.manage("hwservicemanager")
        stage.run(packages.tool("binder-list", "-d", HIDL))
        service = stage.start(packages.command(build.real("hidl_service"))).wait_for("ready", 20)
        listed = stage.run(packages.tool("binder-list", "-d", HIDL))
        expect(SERVICE in listed.split(), f"binder-list: {listed}")
        pinged = stage.run(packages.tool("binder-ping", "-d", HIDL, SERVICE))
        expect(pinged == "OK", f"binder-ping: {pinged}")
        called = call_by_tool(packages, stage, HIDL, SERVICE, "1", '"hello"h', "reply", "i32", "hstr")
        expect(called == '0 "you said hello"H', f"binder-call: {called}")
        told = stage.run(packages.command(build.real("hidl_client")))
        service.kill()
        listed = stage.run(packages.tool("binder-list", "-d", HIDL))
        expect(SERVICE not in listed.split(), "a service is listed after its death")
    return f"{told}; listed, pinged and called by the tools; lawful, {stage.entries} steps"


@test("libgbinder 300 services", real=True, timed=True)
def many(build, packages):
    def is_flat(median):
        return build.sanitized or flat_cost(f"call {before} then {median}", "call")

    with Stage(build, journal=DEVICE) as stage:
        stage.manage()
        served(build, packages, stage, "test")
        before = best(stage, client(build, packages, "test", "time", "1000"))
        crowd = served(build, packages, stage, "crowd.", "300")
        listed = stage.run(packages.tool("binder-list", "-d", DEVICE)).split()
        expect(sum(name.startswith("crowd.") for name in listed) == 300, f"binder-list lists {len(listed)}")
        after = best(stage, client(build, packages, "test", "time", "1000"), is_flat)
        expect(is_flat(after), f"{before} us a call, {after} us with 300 services")
        crowd.kill()
        listed = stage.run(packages.tool("binder-list", "-d", DEVICE)).split()
        expect(not any(name.startswith("crowd.") for name in listed), "services are listed after their death")
    return f"{before} us a call, {after} us with 300 services; lawful, {stage.entries} steps"


def best(stage, words, enough=lambda median: True):
    """The best median of some rounds, and of more until it is enough: other work only delays."""
    least = float("inf")
    for turn in range(MOST_ROUNDS):
        if turn >= ROUNDS and enough(least):
            break
        least = min(least, figures(stage.run(words))["median"])
    return least


@test("libgbinder latency", real=True, plain_only=True, timed=True)
def latency(build, packages):
    """The same client calls the same service, with the same library preloaded, over the daemon and over a bare relay in its place. In
    turn; of each the round with the best median counts."""
    words = client(build, packages, "test", "time", "2000")
    relay = call = float("inf")
    with Stage(build) as stage, Stage(build, bare=True) as bare:
        for it in (stage, bare):
            it.manage()
            served(build, packages, it, "test")
        for turn in range(MOST_ROUNDS):
            if turn >= ROUNDS and call <= TIMES_RELAY * relay:
                break
            relay = min(relay, figures(bare.run(words))["median"])
            call = min(call, figures(stage.run(words))["median"])
    told = f"{call} us a call, {relay} us over a bare relay: {call / relay:.2f} times"
    expect(call <= TIMES_RELAY * relay, told)
    return told


@test("libgbinder soak of kills", real=True, timed=True)
def real_soak(build, packages):
    def begin(stage):
        stage.manage()

    def parts(_):
        """A journal of version two has 31 seats, so not all play at once."""
        modes = [["time", "100000"], ["threads", "3", "2000"], ["nested", "1000"], ["descriptors", "1000"], ["keep"],
                 ["oneway", "300"], ["big", "100000"], ["death"]]
        choices = [client(build, packages, "test", *words) for words in modes]
        return [([packages.command(build.real("service"), "test")], 3), ([choices[0]], 2), (choices, 1), (choices, 1), (choices, 1)]
    return soak(build, begin, parts, honest=False)
