"""What a loss of power may leave of a device: crates/devices/specs/Crash.antt, read definition by definition, as it stands.

Effects are the newest first, as there; `past` is all but the newest. Names are files by their paths, and a file is the path at
which it was made and how many effects there were then. This tries all choices, so it takes few effects: `allowed.py` decides the
same of many."""
from losses.effects import Added, FailedFile, FailedFolder, Moved, Removed, SyncedFile, SyncedFolder, Wrote


def set_name(names, path, file):
    """`set`."""
    return {**names, path: file}


def moved(names, source, target, file):
    return names if file is None else set_name(set_name(names, source, None), target, file)


def removed(names, path, file):
    return names if file is None else set_name(names, path, None)


def first_names(base):
    return {path: (path, 0) for path in base}


def added_to(names, path, count, file):
    return names if file is not None else set_name(names, path, (path, count))


def names_after(base, effects):
    if not effects:
        return first_names(base)
    effect, past = effects[0], effects[1:]
    return changed(names_after(base, past), effect, len(effects), names_after(base, past))


def changed(names, effect, count, seen):
    """These names after an effect, where others are seen before it."""
    if isinstance(effect, Wrote):
        return set_name(names, effect.path, (effect.path, count))
    if isinstance(effect, Added):
        return added_to(names, effect.path, count, seen.get(effect.path))
    if isinstance(effect, Moved):
        return moved(names, effect.source, effect.target, seen.get(effect.source))
    if isinstance(effect, Removed):
        return removed(names, effect.path, seen.get(effect.path))
    return names


def bytes_after(base, effects, file):
    if not effects:
        return base.get(file[0], b"")
    effect, past = effects[0], effects[1:]
    if isinstance(effect, (Wrote, Added)) and file[1] == len(effects):
        return effect.data
    if isinstance(effect, Added) and names_after(base, past).get(effect.path) == file:
        return bytes_after(base, past, file) + effect.data
    return bytes_after(base, past, file)


def has_failed(base, effects, file):
    if not effects:
        return False
    effect, past = effects[0], effects[1:]
    is_here = isinstance(effect, FailedFile) and names_after(base, past).get(effect.path) == file
    return is_here or has_failed(base, past, file)


def folder_has_failed(effects, folder):
    return any(isinstance(effect, FailedFolder) and effect.folder == folder for effect in effects)


def is_in(folder, path):
    return path.startswith(folder) and b"/" not in path[len(folder) :]


def may_names(base, effects):
    """All names for which `MayNames` holds."""
    if not effects:
        yield first_names(base)
        return
    effect, past = effects[0], effects[1:]
    seen = names_after(base, past)
    for names in may_names(base, past):
        if isinstance(effect, SyncedFolder) and not folder_has_failed(past, effect.folder):
            if any(names.get(path) != seen.get(path) for path in {*names, *seen} if is_in(effect.folder, path)):
                continue
        yield names
        after = changed(names, effect, len(effects), seen)
        if after != names:
            yield after


def is_front_from(least, whole, data):
    return data.startswith(least) and whole.startswith(data)


def may_bytes(base, effects, file, data):
    if not effects:
        return data == base.get(file[0], b"")
    effect, past = effects[0], effects[1:]
    if isinstance(effect, (Wrote, Added)) and file[1] == len(effects):
        return True
    if may_bytes(base, past, file, data):
        if not isinstance(effect, SyncedFile) or names_after(base, past).get(effect.path) != file or has_failed(base, past, file):
            return True
        return data == bytes_after(base, past, file)
    if isinstance(effect, Added) and names_after(base, past).get(effect.path) == file:
        whole = bytes_after(base, past, file) + effect.data
        leasts = [data[:end] for end in range(len(data) + 1)]
        return any(is_front_from(least, whole, data) and may_bytes(base, past, file, least) for least in leasts)
    return False


def stands(base, effects, file, found):
    """Whether what is found at a path, or None, may be there if this file is named so."""
    if file is None or found is None:
        return file is found
    return may_bytes(base, effects, file, found)


def may_leave(base, effects, left):
    return any(
        all(stands(base, effects, names.get(path), left.get(path)) for path in {*names, *left})
        for names in may_names(base, effects)
    )
