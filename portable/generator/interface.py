"""The interface of a library, as far as MIR lacks it: the names of fields, variants and parameters, the sign of a number that is given to C, and
which functions are public. Of these only the sign could change an answer, and the C compiler holds it to the header. What is not found here, of
closures and of methods, or is a word of C, gets a name from its place."""
import re

NAMED = re.compile(r"(?:^|, )(?:pub (?:\( .*? \) )?)?(\w+) : (.*?)(?= ,|$)")
BLOCK = re.compile(r"^(?:# \[.*\] )?(?:unsafe )?(?:impl|(?:pub (?:\( .*? \) )?)?trait)\b.*\{\n(?:(?!\}).*\n)*\}", re.M)
GENERIC = r"(?:< .*? > )?"
KEYWORDS = set("""auto break case char const continue default do double else enum extern float for goto if inline int long register restrict return
short signed sizeof static struct switch typedef union unsigned void volatile while bool true false asm""".split())


class Interface:
    """What the interface of a module says. Its words stand apart: `pub struct Move { pub to : u8 , pub tiles : u8 , }`."""

    def __init__(self, text):
        self.fields = {}  # type -> [(field or variant, source type)]
        self.parameters = {}  # function -> [(parameter, source type)]
        self.public = []  # functions
        text = BLOCK.sub("", text)
        for name, part in re.findall(rf"\bstruct (\w+) {GENERIC}\{{ (.*?) ?(?:\}}|$)", text, re.M):
            self.fields[name] = NAMED.findall(part)
        for name, part in re.findall(rf"\bstruct (\w+) {GENERIC}\( (.*?) \) ;", text):
            self.fields[name] = [(f"f{i}", kind.split()[-1]) for i, kind in enumerate(part.split(" , "))]
        for name, part in re.findall(rf"\benum (\w+) {GENERIC}\{{ (.*?) ?\}}", text):
            self.fields[name] = re.findall(r"(?:^|, )(\w+)()", re.sub(r"\(.*?\)", "", part))
        for pub, name, part in re.findall(rf"\b(pub )?fn (\w+) {GENERIC}\( (.*?) ?\)", text):
            self.parameters[name] = NAMED.findall(part)
            self.public += [name] if pub else []


def names(found, count, kind, first=0):
    """The names of a type's fields or variants, or of a function's parameters, as many as its MIR has: those found, or KIND with a number."""
    given = [name for name, _ in found]
    if len(set(given)) == count == len(given) and not any(name in KEYWORDS or re.fullmatch(r"_|v\d+", name) for name in given):
        return given
    return [f"{kind}{i}" for i in range(first, first + count)]
