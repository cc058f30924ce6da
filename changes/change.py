"""A small change of a file of crates/model/specs: its name, the file, and texts in it with what stands there instead."""

CHANGES = []
PRELUDE = "use Rattle.std.specs.Prelude.{"


def change(name, file, *texts):
    CHANGES.append((name, file, list(zip(texts[::2], texts[1::2]))))


def taking(name):
    """Two texts for `change`: the file takes this name too from the library."""
    return PRELUDE, f"{PRELUDE}{name}, "


def changed(text, pairs, name):
    """The text with each pair's first replaced by its second; each stands there once."""
    for old, new in pairs:
        if text.count(old) != 1:
            raise SystemExit(f"{name}: {text.count(old)} places of {old!r}")
        text = text.replace(old, new)
    return text
