"""C's names. A function or a type without parameters has its path for a name: hand_record::read is hand_record_read; of a path in the kit's own
libraries stand the library and the last words. What has parameters has the types that it is given after that, or a number where that is too long
to read: C99 tells names apart by 63 letters."""
import re

from mir import Unknown, crate_of

LONGEST = 48
KIT = {"core", "std", "std_alloc", "std_heap", "std_io"}


def plain_name(path, last):
    """C's name of a path; last: how many words of a path in the kit's libraries stand there."""
    words = path.split("::")
    if crate_of(path) in KIT and len(words) > last + 1:
        words = words[:1] + words[-last:]
    return re.sub(r"\W+", "_", "_".join(words)) if re.search(r"\w", path) else "tuple"


class Names:
    """The names given so far."""

    def __init__(self):
        self.names = {}  # what is named -> its name
        self.taken = {}  # name -> what it names

    def of(self, key, path, words, last):
        """The name of what `key` stands for, from its path and the words for the types that it is given."""
        if key not in self.names:
            base = plain_name(path, last)
            name = "_".join([base, *words])
            numbers = (f"{base}_{number}" for number in range(1, 10 ** 6))
            if (words and len(name) > LONGEST) or (name in self.taken and (words or crate_of(path) in KIT)):
                name = next(name for name in numbers if name not in self.taken)
            if self.taken.setdefault(name, key) != key:
                raise Unknown(f"two things with the name {name}: {self.taken[name]} and {key}")
            self.names[key] = name
        return self.names[key]
