"""The rounds of tests/machines/virtual/standby.py: what happens to two machines while clients ask. Each ends with what
it says of itself, and a disk to be judged."""
import re
import time
from typing import Callable

from alarms.client import Client
from pair import TWO_WAYS, Node
from lib.program import check
from stand import BOOT, PORT, SLOTS, STEP, Asker, Site
from lib.tools import await_true

# Seconds in which nothing may be answered, where nothing may.
STILL = 10


class Round:
    """A round that has ended: what it says of itself, on which disk each plant was served last, and whether it has to
    lose actions."""

    def __init__(self, site: Site, last: Node, said: str, loses: bool = False):
        self.site, self.said, self.loses = site, said, loses
        self.disks = {plant: last.disks[plant == "south"] for plant in {asker.plant for asker in site.askers}}


def took(site: Site, since: float) -> str:
    return f"{site.first_answer(since):.1f} s from the death to the first answer"


def commit(node: Node, block: str) -> str:
    """Milliseconds of a commit's two writes, by the page's block."""
    seconds = re.search(r"copied, ([\d.]+) s", node.run(block, STEP))
    check(seconds, "the page's block of costs")
    return f"{2 * 1000 * float(seconds[1]) / 500:.1f} ms"


def died(site: Site) -> Round:
    site.set_up()
    site.automatic(site.first, site.second)
    site.work()
    site.first.kill()
    said = took(site, time.monotonic())
    site.work()
    return Round(site, site.second, said)


def by_hand(site: Site) -> Round:
    site.set_up(asks=False)
    joined = commit(site.first, site.blocks["What it costs"])
    site.start_clients()
    site.work()
    site.first.kill()
    since = time.monotonic()
    site.second.run(site.blocks["Take over by hand"], STEP)
    said = took(site, since)
    site.work()
    site.stop_clients()
    alone = commit(site.second, site.blocks["What it costs"])
    return Round(site, site.second, f"{said}; a commit's two writes take {joined} together, {alone} alone")


def cut(site: Site) -> Round:
    site.set_up()
    site.work()
    site.pair.cut()
    time.sleep(1)
    before = site.count()
    time.sleep(STILL)
    check(site.count() == before, site.count() - before, "actions were answered behind a cut cable")
    with Client.connect(PORT, 3) as console:
        check(console.action_count() >= before, "a query behind a cut cable")
    check(not site.pair.power.switched, "a machine was switched off")
    since = time.monotonic()
    site.second.run(site.blocks["Take over by hand"], STEP)
    check(site.pair.power.switched == [site.first.name], "switched off were", site.pair.power.switched)
    said = f"nothing answered in {STILL} s behind the cut cable, but queries; " + took(site, since)
    site.work()
    return Round(site, site.second, said)


def alone(site: Site) -> Round:
    """The cable is cut, and alarms_alone resumes once the second machine is off."""
    site.set_up()
    site.work()
    site.pair.cut()
    time.sleep(STILL)  # the fence has asked the switch, and given up
    before = site.count()
    refused = site.first.run("alarms_alone || echo refused", STEP)
    time.sleep(STILL)
    check(
        site.count() == before,
        site.count() - before,
        "actions were answered behind a cut cable, though the standby had power",
    )
    check(
        "nothing was resumed" in refused and refused.count("refused") == 1,
        "behind a cut cable alarms_alone said",
        refused,
    )
    site.second.kill()
    since = time.monotonic()
    site.first.run("alarms_alone", STEP)
    said = took(site, since).replace("death", "word")
    site.answers(20)
    site.pair.cut(is_whole=True)
    said += f"; the standby was equal {site.rejoin(site.second):.1f} s after its return"
    site.work()
    site.first.kill()
    site.second.run(site.blocks["Take over by hand"], STEP)
    site.answers(20)
    return Round(site, site.second, f"nothing resumed while the standby had power; {said}")


def without_switch(site: Site) -> Round:
    """The standby dies where no switch answers: nothing is answered before a word of the administrator's."""
    site.set_up()
    site.pair.power.answers = False
    site.work()
    site.second.kill()
    time.sleep(1)
    before = site.count()
    time.sleep(STILL)
    check(
        site.count() == before,
        site.count() - before,
        "actions were answered, and nobody knew that the other machine was off",
    )
    site.first.run("drbdadm resume-io alarms", STEP)
    site.answers(20)
    site.rejoin(site.second)
    site.work()
    site.first.kill()
    time.sleep(3)
    site.second.run("drbdadm primary alarms", STEP, fails=True)
    since = time.monotonic()
    lines = site.blocks["Take over by hand"].splitlines()[3:]
    site.second.run("\n".join(lines).replace("drbdadm primary", "drbdadm primary --force"), STEP)
    site.first_answer(since)
    site.work()
    return Round(
        site,
        site.second,
        f"nothing answered in {STILL} s without the standby, and nothing taken over by a word without force",
    )


def change(site: Site) -> Round:
    site.set_up()
    site.work()
    site.first.run(
        (
            "drbdadm verify alarms\nuntil dmesg | grep -q 'Online verify.*done'; do sleep 1; done\n! dmesg | grep -i"
            " 'out of sync'"
        ),
        STEP,
    )
    since = time.monotonic()
    site.first.run(site.blocks["Change machines"], STEP)
    site.second.run("alarms_takeover", STEP)
    said = took(site, since).replace("death", "stop")
    site.work()
    return Round(site, site.second, f"both disks are the same by `verify`; {said}")


def cut_alone(site: Site) -> Round:
    site.set_up()
    site.automatic(site.first, site.second)
    site.work()
    site.pair.cut()
    await_true("a machine that is switched off", lambda: bool(site.pair.power.switched), STEP)
    check(site.pair.power.switched == [site.second.name], "switched off were", site.pair.power.switched)
    time.sleep(1)
    site.answers(20)
    said = f"{site.second.name} was switched off; "
    site.pair.cut(is_whole=True)
    said += f"it was equal {site.rejoin(site.second):.1f} s after its return; "
    site.automatic(site.second)
    site.work()
    site.first.kill()
    said += took(site, time.monotonic())
    site.work()
    return Round(site, site.second, said)


def back(site: Site) -> Round:
    site.set_up()
    site.automatic(site.first, site.second)
    site.work()
    site.first.kill()
    said = took(site, time.monotonic())
    site.work()
    said += f"; the first was equal {site.rejoin(site.first):.1f} s after its return; "
    site.automatic(site.first)
    site.work()
    site.second.kill()
    said += took(site, time.monotonic())
    site.work()
    return Round(site, site.first, said)


def both(site: Site) -> Round:
    site.set_up()
    site.work()
    for node in site.pair.nodes.values():
        node.kill()
    since = time.monotonic()
    for node in site.pair.nodes.values():
        node.start()
    for node in site.pair.nodes.values():
        site.install(node)
        node.run(site.blocks["A machine that comes back"], STEP)
    site.automatic(site.first, site.second)
    said = took(site, since) + ", two starts of a machine in it"
    site.work()
    serving = [node for node in site.pair.nodes.values() if "Primary/" in node.state()]
    check(len(serving) == 1, len(serving), "machines serve")
    return Round(site, serving[0], said)


def stale(site: Site) -> Round:
    """A machine with an older disk takes nothing over."""
    site.set_up()
    site.automatic(site.first)
    site.work()
    site.pair.cut()
    await_true("a machine that is switched off", lambda: site.pair.power.switched == [site.second.name], STEP)
    time.sleep(1)
    site.answers(20)
    site.second.start()
    site.install(site.second)
    site.second.run(site.blocks["A machine that comes back"], STEP)
    site.automatic(site.second)
    time.sleep(STILL)
    check(site.pair.power.switched == [site.second.name], "the machine with an older disk switched the other one off")
    site.first.kill()
    time.sleep(STILL)
    site.second.run("drbdadm primary alarms", STEP, fails=True)
    check("Secondary/" in site.second.state(), "a machine with an older disk took over:", site.second.state())
    site.first.start()
    site.install(site.first)
    site.first.run(site.blocks["A machine that comes back"], STEP)
    since = time.monotonic()
    site.automatic(site.first)
    site.first_answer(since)
    site.work()
    return Round(site, site.first, "the machine with the older disk took nothing over")


def each_other(site: Site) -> Round:
    """Each machine serves a plant; the first dies, and the second serves both."""
    plants = {"north": (site.first, 5000), "south": (site.second, 5020)}
    site.askers = [Asker(slot, site.seed, plant, port) for plant, (_, port) in plants.items() for slot in SLOTS]
    site.begin(site.first, site.second)
    for node in (site.first, site.second):
        node.until("up\n", BOOT)
        node.run(site.blocks["Two plants, on both machines"], STEP)
        for plant in plants:
            node.run(site.blocks["The disk, on both machines"].replace("alarms", plant), STEP)
    site.second.run("sed -i 's/^DELAY=.*/DELAY=5/' /etc/alarms/standby.env", STEP)
    for plant, (node, _) in plants.items():
        await_true("two connections", lambda: node.state().count("cs:Connected") == 2, STEP)
        node.run(f"plant={plant}\n" + site.blocks["Each plant, on its own machine"], STEP)
    site.first.until_equal(STEP)
    site.start_clients()
    site.automatic(site.first, site.second)
    site.work()
    site.first.kill()
    since = time.monotonic()
    said = f"{site.first_answer(since, 'north'):.1f} s from the death to the first answer of its plant"
    site.answers(50)
    return Round(site, site.second, f"{said}; the other plant stood still for {site.pause(since, 'south'):.1f} s")


def as_machine(site: Site, way: str, key: str) -> None:
    """The one machine takes the part of a machine that reaches the disk by a way of its own."""
    settings = f"sed -i 's/^KEY=.*/KEY={key}/; s/^TAKE=.*/TAKE=--preempt/' /etc/alarms/shared.env"
    site.first.run(
        "\n".join(
            [f"ln -sf /dev/{way} /dev/disk/by-id/scsi-alarms", site.blocks["The lock, on both machines"], settings]
        ),
        STEP,
    )


def shared_disk(site: Site) -> Round:
    """The second way to a disk takes its lock, and the server on the first ends."""
    machine = site.first
    site.begin(machine)
    machine.until("up\n", BOOT)
    machine.run(TWO_WAYS, STEP)
    as_machine(site, "sda", "0xa1")
    machine.run(site.blocks["The shared disk's plants, on one machine"], STEP)
    site.start_clients()
    site.work()
    as_machine(site, "sdb", "0xb2")
    lock, *rest = site.blocks["Take the shared disk over by hand"].splitlines()
    machine.run(lock, STEP)
    since = time.monotonic()
    machine.run("while pidof alm_server; do usleep 50000; done; grep 'fault stopped' /tmp/serving.plant", STEP)
    before = site.count()
    machine.run("! echo '17 1 CLOCK 2000000000' | alm_server desk /var/lib/alarms/plant.device | grep OK", STEP)
    time.sleep(2)
    check(site.count() == before, "actions were answered without the lock")
    machine.run("umount -l /var/lib/alarms\n" + "\n".join(rest), STEP)
    said = took(site, since)
    site.work()
    return Round(site, machine, "the server without the lock ended; " + said.replace("death", "lock"))


def defaults(site: Site) -> Round:
    site.set_up(without="fencing|fence-peer")
    site.work()
    site.pair.cut()
    time.sleep(2)
    before = site.count()
    site.answers(100)
    alone = site.count() - before
    site.first.kill()
    hand = [line for line in site.blocks["Take over by hand"].splitlines() if "power" not in line]
    site.second.run("\n".join(hand), STEP)
    site.answers(20)
    return Round(site, site.second, f"{alone} answered behind the cut cable and more", loses=True)


ROUNDS: dict[str, Callable[[Site], Round]] = {
    "died": died,
    "by-hand": by_hand,
    "alone": alone,
    "no-switch": without_switch,
    "change": change,
    "cut": cut,
    "cut-alone": cut_alone,
    "back": back,
    "both": both,
    "stale": stale,
    "shared-disk": shared_disk,
    "each-other": each_other,
    "defaults": defaults,
}
