"""What commands on the journal of a mirror answer and leave, by docs/COMMANDS.md."""

from . import cosigner, entry, mirror, store
from .on_cosigners import opened_cosigner, signature
from .on_logs import up_to
from .room import appended, begun, checked, lines, opened_with_tiles, refused, stored


def opened_mirror(words, files, writes=False):
    """The mirror of the journal that is named first."""
    return opened_with_tiles(words, words[1], files, mirror.opened, writes)


def mirror_init(words, files):
    _, name, id = words
    begun(words, files, name, mirror.mirror_body(store.anchor_id(id)))
    return lines(f"mirror {id}")


def mirror_take(words, files):
    _, name, file = words
    items = checked(words, file, 2, entry.items, files[file])
    held = opened_mirror(words, files, writes=True)
    items = checked(words, None, 4, mirror.new_items, held, items)
    count = mirror.fitting(items)
    if count == 0:
        raise refused(words, 9, f"TooLarge {held.size}")
    appended(files, name, mirror.batch_body(items[:count]))
    return lines(f"mirrored {held.size + count}")


def mirror_tile(words, files):
    held = opened_mirror(words, files, writes=True)
    full = held.size // mirror.TILE * mirror.TILE
    if full <= held.tiled:
        raise refused(words, 4, "NothingNew")
    stored(files, words[1], held, full)
    appended(files, words[1], mirror.tiles_body(full))
    return lines(f"tiled {full}")


def mirror_entries(words, files):
    held, size = opened_mirror(words, files), int(words[2])
    up_to(words, held, size)
    return entry.written(held.items[:size])


def opened_both(words, files):
    """The mirror that is named second, and the cosigner that is named first, which is opened before."""
    signer = opened_cosigner(words, files)
    return opened_with_tiles(words, words[2], files, mirror.opened, mine=(files.place(words[1]),)), signer


def mirror_advance(words, files):
    held, signer = opened_both(words, files)
    asked = checked(words, None, 4, mirror.advance, held, signer, int(words[3]))
    appended(files, words[1], cosigner.advance_body(asked))
    return lines(f"advanced {words[3]}")


def mirror_cosign(words, files):
    held, signer = opened_both(words, files)
    asked = checked(words, None, 4, mirror.sign, held, signer, int(words[3]), int(words[4]))
    return signature(files, words[1], signer, asked)


COMMANDS = {"mirror-init": mirror_init, "mirror-take": mirror_take, "mirror-tile": mirror_tile,
            "mirror-entries": mirror_entries, "mirror-advance": mirror_advance, "mirror-cosign": mirror_cosign}
