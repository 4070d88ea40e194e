"""Each refusal from 1 to 7 on the page: by keys where keys can, else by typing notation or a record."""
from hands import finished

LINE_1 = "b81e640210620a31661a9a6bb0"


def by_bit(desk, refusal):
    """Line 1's record with one bit changed so that it meets a refusal."""
    for bit in range(8 * len(LINE_1) // 2):
        record = bytearray.fromhex(LINE_1)
        record[bit // 8] ^= 0x80 >> bit % 8
        if desk.ask(f"hand {record.hex()} --plain")["refusal"] == [str(refusal)]:
            return record.hex()
    raise AssertionError(f"no bit leads to refusal {refusal}")


def run(desk):
    for text, refusal in [
        (LINE_1[:-2], 1),
        (by_bit(desk, 2), 2),
        (by_bit(desk, 3), 3),
        ("11111m234567p99s+9s seat=1 ron=3", 4),
        (by_bit(desk, 5), 5),
        (by_bit(desk, 6), 6),
        ("b81e68801869c8a29a8ab0c8", 7),
    ]:
        desk.fresh()
        desk.read(text)
        desk.checks.same(f"typed {text}: refusal", desk.browser.text(".refusal-number"), f"Refusal {refusal}")
        finished(desk, text)
    desk.key_in("234567m345p67s22s+8s seat=1 tsumo chankan riichi", mouse=True)
    finished(desk, "234567m345p67s22s+8s seat=1 tsumo chankan riichi")
    desk.picture("refusal")
    desk.key_in("1111m44m77m22p55p8p+8p seat=1 ron=3")
    finished(desk, "1111m44m77m22p55p8p+8p seat=1 ron=3")
