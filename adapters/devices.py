"""TUN devices for the programs beside this file, with the kernel's offloads and its steering or without."""
import ctypes
import errno
import fcntl
import os
import struct
import subprocess
import sys

# From linux/if_tun.h: a device that carries IP, without a header of its own; and the header of linux/virtio_net.h.
TUNSETIFF, IFF_TUN, IFF_NO_PI, IFF_VNET_HDR = 0x400454CA, 0x0001, 0x1000, 0x4000
TUNSETOFFLOAD, TUNSETVNETLE = 0x400454D0, 0x400454DC
# Whoever reads takes open checksums and large TCP packets over IPv4, ECN included. Large datagrams (since Linux 6.2) go
# by two flags that only go together.
TUN_F_CSUM, TUN_F_TSO4, TUN_F_TSO_ECN, TUN_F_USO4, TUN_F_USO6 = 0x01, 0x02, 0x08, 0x20, 0x40
OFFLOADS = TUN_F_CSUM | TUN_F_TSO4 | TUN_F_TSO_ECN
DATAGRAMS = TUN_F_USO4 | TUN_F_USO6
CLONE_NEWNET = 0x40000000

# What stands in front of each packet of a device with offloads: flags, kind of the segments, length of the headers, size
# of a segment, where an open checksum begins to sum up, and where it stands behind that.
HEADER = struct.Struct("<BBHHHH")
OPEN_CHECKSUM = 1


def enter(namespace):
    """Goes into a network namespace, an open file of /run/netns or /proc."""
    libc = ctypes.CDLL(None, use_errno=True)
    if libc.setns(namespace.fileno(), CLONE_NEWNET) != 0:
        raise OSError(ctypes.get_errno(), os.strerror(ctypes.get_errno()), namespace.name)


def switch(tun, offload):
    """Switches the offloads on or off. A device keeps what the program before had set, so it is always said."""
    if not offload:
        fcntl.ioctl(tun, TUNSETOFFLOAD, 0)
        return
    fcntl.ioctl(tun, TUNSETVNETLE, struct.pack("i", 1))
    try:
        fcntl.ioctl(tun, TUNSETOFFLOAD, OFFLOADS | DATAGRAMS)
    except OSError as fault:
        if fault.errno != errno.EINVAL:
            raise
        fcntl.ioctl(tun, TUNSETOFFLOAD, OFFLOADS)


def attach(name, namespace, offload):
    """Attaches to a TUN device, in a named network namespace where one is given; makes it where it is missing."""
    flags = IFF_TUN | IFF_NO_PI | (IFF_VNET_HDR if offload else 0)
    with open("/proc/self/ns/net", "rb") as home:
        if namespace:
            with open(f"/run/netns/{namespace}", "rb") as other:
                enter(other)
        tun = os.open("/dev/net/tun", os.O_RDWR | os.O_NONBLOCK | os.O_CLOEXEC)
        fcntl.ioctl(tun, TUNSETIFF, struct.pack("16sH22x", name.encode(), flags))
        switch(tun, offload)
        enter(home)
    return tun


def processors():
    """The processors that this may run on, as /sys has them: a bit for each, in hex."""
    with open("/proc/self/status", encoding="ascii") as file:
        return next(line.split()[1] for line in file if line.startswith("Cpus_allowed:"))


def bits(text):
    """A set of processors, as /sys has it."""
    return int(text.replace(",", "") or "0", 16)


def steer(name, namespace, wanted):
    """Has the kernel go on with what is handed to a device on these processors, each flow on one of them (receive packet
    steering). If there are none, it does so within the call that hands it over. A device keeps this, too."""
    inside = ["ip", "netns", "exec", namespace] if namespace else []
    path = f"/sys/class/net/{name}/queues/rx-0/rps_cpus"
    found = subprocess.run([*inside, "cat", path], capture_output=True, text=True, check=False)
    if found.returncode == 0 and bits(found.stdout) == bits(wanted):
        return
    done = subprocess.run([*inside, "tee", path], input=wanted, capture_output=True, text=True, check=False)
    if done.returncode != 0:
        print(f"the steering of {name} stays as it is: {done.stderr.strip()}", file=sys.stderr, flush=True)


def add_options(words, sides):
    """Adds the options that name the devices, and those of their offloads and their steering."""
    for side in sides:
        words.add_argument(f"--{side}-device", default=f"natgw-{side}", metavar="NAME", help="(%(default)s)")
        words.add_argument(f"--{side}-netns", metavar="NAME", help="the network namespace that the device is in")
    words.add_argument("--no-offload", action="store_true", help="each packet as the link has it, cut and summed up by the kernel")
    steering = words.add_mutually_exclusive_group()
    steering.add_argument("--steering", action="store_true", help="the kernel goes on with what is let out on all processors")
    steering.add_argument("--keep-steering", action="store_true", help="that stays as whoever made the devices has set it")


def attach_both(given, sides):
    """Attaches to the devices that the options name, and switches their steering on or off."""
    tuns = []
    wanted = processors() if given.steering else "0"
    for side in sides:
        name, namespace = getattr(given, f"{side}_device"), getattr(given, f"{side}_netns")
        tuns.append(attach(name, namespace, not given.no_offload))
        if not given.keep_steering:
            steer(name, namespace, wanted)
    return tuns
