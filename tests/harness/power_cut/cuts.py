"""Which images of a disk are looked at: the moments of a scene, and what of the open writes came on the disk."""
import random
import zlib

from power_cut import disk


def moments(scene, log, draw):
    """Moments without end: each acknowledgement, each flush, and any others, in turn but in an order that is drawn."""
    span = range(scene.begin, scene.end + 1)
    acknowledged = [moment for moment in scene.acked if moment in span]
    flushes = [moment for moment in span[:-1] if log[moment] is None]
    groups = [acknowledged, flushes, acknowledged, flushes, list(span)]
    while True:
        for group in groups:
            if group:
                yield draw.choice(group)


def systematic(scene, log):
    """Each acknowledgement and each flush, with all open writes and with none."""
    span = range(scene.begin, scene.end + 1)
    for moment in sorted({*(m for m in scene.acked if m in span), *(m for m in span[:-1] if log[m] is None)}):
        yield moment, none_of
        yield moment, all_of


# ---- what of the open writes came on the disk: the chosen parts, cut at sectors

def none_of(writes, sector, draw):
    return []


def all_of(writes, sector, draw):
    return writes


def all_but_one(writes, sector, draw):
    left_out = draw.randrange(len(writes))
    return [write for k, write in enumerate(writes) if k != left_out]


def one_alone(writes, sector, draw):
    return [draw.choice(writes)]


def first_and_a_torn_one(writes, sector, draw):
    count = draw.randrange(len(writes))
    return writes[:count] + torn(writes[count], sector, draw)


def half_of_the_writes(writes, sector, draw):
    return [write for write in writes if draw.random() < 0.5]


def half_of_the_sectors(writes, sector, draw):
    return [part for write in writes for part in disk.parts(write, sector) if draw.random() < 0.5]


def all_but_one_sector(writes, sector, draw):
    return all_but_one([part for write in writes for part in disk.parts(write, sector)], sector, draw)


def all_and_one_torn(writes, sector, draw):
    one = draw.randrange(len(writes))
    return writes[:one] + torn(writes[one], sector, draw) + writes[one + 1:]


def torn(write, sector, draw):
    parts = disk.parts(write, sector)
    first = draw.randrange(len(parts) + 1)
    return draw.choice([parts[:first], parts[first:], [part for part in parts if draw.random() < 0.5]])


def first_writes(writes, sector, draw):
    return writes[:draw.randrange(len(writes) + 1)]


CHOICES = (all_but_one, one_alone, first_and_a_torn_one, half_of_the_writes, half_of_the_sectors, all_but_one_sector,
           all_and_one_torn, first_writes)


# ---- the images

class Image:
    """A moment, and the blocks that differ from the base of the disk."""

    def __init__(self, moment, how, blocks):
        self.moment, self.how, self.blocks = moment, how, blocks


def key(past, parts):
    """What makes two images the same, if the disk is safe up to the same point."""
    return past.version, zlib.crc32(b"".join(b"%d %d %d," % (part.number, part.at, len(part.data)) for part in parts))


def images(recorded, scene, sector, count, seed, lies=False, every=True):
    """Some `count` images of a scene, no two the same between two acknowledgements, by rising moments. With `every`
    those of each flush and each acknowledgement come on top."""
    draw = random.Random(f"{seed} {scene.name} {sector} {lies}")
    wanted = list(systematic(scene, recorded.log)) if every else []
    more = moments(scene, recorded.log, draw)
    wanted += [(next(more), draw.choice(CHOICES)) for _ in range(count)]
    past, seen = disk.Past(recorded, scene.begin, lies), set()
    for moment, choose in sorted(wanted, key=lambda one: one[0]):
        past.to(moment)
        writes = past.open
        parts = choose(writes, sector, draw) if writes else []
        found = (*key(past, parts), scene.window(moment))
        if found not in seen:
            seen.add(found)
            yield Image(moment, choose.__name__.replace("_", " "), past.left(parts))
