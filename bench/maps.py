"""ConfigMaps in four namespaces, and the lines that create and read them, for the measurements beside this file."""
import random

from program import create, namespace, read

SPACES = [namespace(f"n{i}") for i in range(4)]


def settings(number):
    """The data of a ConfigMap, of about 1 KiB as JSON."""
    return {f"setting-{i:02}": f"name = value-{number * 16 + i:08}\n# as it was set by hand" for i in range(16)}


def switch(_number):
    """The data of a small ConfigMap."""
    return {"on": "yes"}


def places(count):
    """The namespaces and the names of so many ConfigMaps."""
    return [(f"n{i % len(SPACES)}", f"c{i}") for i in range(count)]


def creates(count, data):
    return [create(*place, data(i)) for i, place in enumerate(places(count))]


def reads(count):
    """Lines that read each of so many ConfigMaps, in shuffled order."""
    return [read(*place) for place in random.Random(0).sample(places(count), count)]
