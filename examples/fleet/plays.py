"""What is played with a fleet under load. Each play tells what it has seen."""

import time

from clients import Load
from instances import READ, WRITE
from machines import FRONT, STORE, wait_until
from service import want


def taken_over(instance, post):
    """Waits until the other machine serves. The seconds that it took."""
    begun, other = time.monotonic(), instance.other(post)
    wait_until(other.is_serving, f"{instance.name}: nobody takes over", pause=0.05)
    return time.monotonic() - begun


def hand_over(instance):
    return hand_over_by(instance.active())


def hand_over_by(post):
    """Stops who serves; it stands by then. The seconds until the other one serves."""
    told = post.command("stop")
    want(told == "stopped\n", f"stop: {told}")
    post.process.wait()
    seconds = taken_over(post.instance, post)
    post.begin()
    return seconds


def spread(fleet):
    """Sees to it that each machine serves one instance."""
    first, second = (instance.active() for instance in fleet.instances)
    if first.machine is second.machine:
        hand_over_by(second)


def handed_over(fleet, clients):
    """`stop`, on both instances."""
    with Load(clients) as load:
        seconds = [hand_over(instance) for instance in fleet.instances]
    return load.tell(f"handed over by stop, in {' and '.join(f'{each:.1f}' for each in seconds)} s",
                     fleet.instances)


def killed(fleet, clients):
    """Who serves is killed, on both instances."""
    with Load(clients) as load:
        seconds = []
        for instance in fleet.instances:
            post = instance.active()
            post.kill()
            seconds.append(taken_over(instance, post))
            post.begin()
    return load.tell(f"killed, taken over in {' and '.join(f'{each:.1f}' for each in seconds)} s",
                     fleet.instances)


def brick_killed(fleet, clients):
    """Each brick in turn is killed and brought back. Files that were open stay without it until
    they are opened anew: so the services are handed over, and it heals while they write."""
    with Load(clients) as load:
        told = [kill_brick(fleet, brick) for brick in fleet.volume.bricks]
    return load.tell(f"bricks killed and brought back, {'; '.join(told)}", fleet.instances)


def kill_brick(fleet, brick):
    volume = fleet.volume
    brick.kill()
    time.sleep(4)
    volume.start_brick(brick)
    time.sleep(4)
    left = wait_until(lambda: counted(volume), "the volume tells nothing")
    for instance in fleet.instances:
        hand_over(instance)
    seconds = volume.heal()
    return f"{brick.name}: {left} files to heal until a hand-over, and none {seconds:.1f} s later"


def counted(volume):
    """What is left to heal, as a text, once it is told."""
    left = volume.left_to_heal()
    return None if left is None else str(left)


def cut_off(fleet, clients):
    """The machine that serves the first instance is cut off from the bricks and brought back. The
    proxy lets go of it before its lock can fall."""
    spread(fleet)
    instance = fleet.instances[0]
    post = instance.active()
    with Load(clients) as load:
        begun = time.monotonic()
        post.machine.cut(STORE)
        seconds = taken_over(instance, post)
        time.sleep(2)
        post.machine.join(STORE)
        returned = stands_by(post)
        fleet.instances[1].active()
        healed = fleet.volume.heal()
    let_go = load.refused(instance) - begun
    want(let_go < seconds, f"the proxy lets go of it after {let_go} s, taken over after {seconds}")
    return load.tell(f"cut off under load, the proxy let go of it after {let_go:.1f} s, taken over "
                     f"in {seconds:.1f} s, healed {healed + returned:.1f} s behind its return",
                     fleet.instances)


def health(post):
    """The status of a reply to /health, or 0 where there is none."""
    return (post.ask(READ) or (0,))[0]


def stands_by(post):
    """Waits until a machine that was cut off says so, and keeps nothing. The seconds. Its program
    goes on: it serves again once the other one lets go of the file."""
    begun = time.monotonic()
    wait_until(lambda: health(post) == 503, "who was cut off does not stand by", 150)
    told = post.ask(WRITE, post.instance.probe)
    want(told and told[0] == 503, f"who was cut off and is back answers {told}")
    return time.monotonic() - begun


def cut_off_idle(fleet, clients):
    """The same while nobody asks it for anything: it notices nothing, and is asked to write once it
    is back. Its lock has fallen, and so has its file."""
    spread(fleet)
    instance = fleet.instances[0]
    post = instance.active()
    fleet.proxy_stands_still()
    post.machine.cut(STORE)
    seconds = taken_over(instance, post)
    still = health(post)
    post.machine.join(STORE)
    time.sleep(15)
    believes = health(post)
    told = post.ask(WRITE, instance.probe, 30)
    want(told and told[0] == 503, f"two processes write one file: {told}")
    stands_by(post)
    fleet.proxy_goes_on()
    with Load(clients):
        pass
    return (f"cut off while nobody asked, taken over in {seconds:.1f} s; its /health said "
            f"{still} then and {believes} once it was back, and its first write was refused")


def unreachable(fleet, clients):
    """A machine that clients do not reach and that reaches the volume keeps its file: nobody takes
    over until it is stopped."""
    spread(fleet)
    instance = fleet.instances[0]
    post = instance.active()
    with Load(clients) as load:
        post.machine.cut(FRONT)
        time.sleep(20)
        want(not instance.other(post).is_serving(), "taken over from one that has its file")
        seconds = hand_over_by(post)
        post.machine.join(FRONT)
        fleet.instances[1].active()
    return load.tell(f"out of clients' reach for 20 s, and handed over by stop in {seconds:.1f} s",
                     fleet.instances)


PLAYS = (handed_over, killed, brick_killed, cut_off, cut_off_idle, unreachable)
