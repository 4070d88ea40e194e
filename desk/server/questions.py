"""What each address asks of the tool. Words come from the browser's text: none may begin with -, so that none is an option. They stand
behind --typed, so that the tool counts them as the person does."""
from tool import Bad

LONGEST_WORDS = 1000
LANGUAGES = ("1", "2", "3", "4")
SAID = {"score": ["say"], "fu": ["say", "--fu"], "waits": ["say", "waits"], "ready": ["say", "ready"], "refusal": ["say", "refusal"]}


def text_of(given, key):
    """A text from the browser."""
    text = given.get(key, "")
    if len(text) > LONGEST_WORDS:
        raise Bad(f"over {LONGEST_WORDS} signs")
    if any(ord(sign) < 32 and sign not in "\t\n\r" or sign == "\x7f" for sign in text):
        raise Bad("a control sign among the words")
    return text


def typed(given):
    """The words that a person typed."""
    words = text_of(given, "words").split()
    for word in words:
        if word.startswith("-") or word.lower() == "help":
            raise Bad(f"\"{word}\" is no word here")
    return ["--typed", *words]


def language_of(given):
    language = given.get("language", "2")
    if language not in LANGUAGES:
        raise Bad("a language is 1, 2, 3 or 4")
    return f"language={language}"


def form_of(given):
    """As what a log is to be read: its own content says so, unless the browser does."""
    form = given.get("as", "")
    if form not in ("", "text", "hex", "bytes"):
        raise Bad("as= is text, hex or bytes")
    return [f"as={form}"] if form else []


def draft(given):
    """A hand as far as it was keyed in."""
    return ["draft", language_of(given), "--plain", *typed(given)]


def number_of(given, key):
    """A number of up to six digits, as a word for the tool; no word where there is none."""
    number = given.get(key, "")
    if number and not (number.isascii() and number.isdigit() and len(number) <= 6):
        raise Bad(f"{key}= is a number up to 999999")
    return [f"{key}={number}"] if number else []


def game(given):
    """A log on standard input, called as the file that it was loaded from; its entries from one of them on, with one more booked."""
    more = [f"more={text_of(given, 'more')}"] if given.get("more") else []
    return ["game", "-", f"called={text_of(given, 'called')}", *form_of(given), *number_of(given, "from"), *more, language_of(given), "--plain"]


def text(given):
    """The text of a log on standard input."""
    return ["log", "-", "as=hex", "--plain"]


def sound(given):
    """A message: of a hand, of an unfinished one, of a refusal; of a log on standard input its scores."""
    kind = given.get("of", "")
    if kind == "scores":
        return ["say", "scores", "-", *form_of(given), language_of(given), "--plain"]
    if kind not in SAID:
        raise Bad("of= is score, fu, waits, ready, refusal or scores")
    return [*SAID[kind], language_of(given), "--plain", *typed(given)]


def damage(given):
    """Every change of a record, or of a log on standard input; or so many random ones."""
    more = number_of(given, "random")
    if given.get("of") == "log":
        return ["damage", "log", "-", *form_of(given), *more, "--progress", "--plain"]
    return ["damage", "hand", *more, "--progress", "--plain", *typed(given)]
