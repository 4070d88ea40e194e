/* Practice cards. */
#include "check.h"

/* Whether so many of each number of a suit are groups, the lowest tile's first. */
static int are_groups(int held[9])
{
    int low = 0, whole = 0;
    while (low < 9 && held[low] == 0)
        low++;
    if (low == 9)
        return 1;
    if (held[low] >= 3) {
        held[low] -= 3;
        whole = are_groups(held);
        held[low] += 3;
    }
    if (!whole && low < 7 && held[low + 1] > 0 && held[low + 2] > 0) {
        held[low]--, held[low + 1]--, held[low + 2]--;
        whole = are_groups(held);
        held[low]++, held[low + 1]++, held[low + 2]++;
    }
    return whole;
}

/* Whether tiles are a card: at most four of a kind, and groups once a pair is taken away. */
static int is_card(const uint8_t *tiles, size_t size)
{
    int held[9] = {0}, found = 0;
    for (size_t i = 0; i < size; i++)
        if (++held[tiles[i] % 9] > 4)
            return 0;
    for (int k = 0; k < 9 && !found; k++)
        if (held[k] >= 2) {
            held[k] -= 2;
            found = are_groups(held);
            held[k] += 2;
        }
    return found;
}

/* The cards of a suit and a size among all ascending lists of tiles, in their order; gives how many there are. */
static size_t all_cards(uint8_t suit, size_t size, uint8_t *list)
{
    uint8_t tiles[8];
    size_t count = 0, place;
    memset(tiles, 9 * suit, sizeof tiles);
    do {
        if (is_card(tiles, size))
            memcpy(list + size * count++, tiles, size);
        for (place = size; place > 0 && tiles[place - 1] == 9 * suit + 8; place--)
            ;
        if (place > 0)
            memset(tiles + place - 1, tiles[place - 1] + 1, size - place + 1);
    } while (place > 0);
    return count;
}

/* Whether a call in a buffer of a length gives these figures, with that list at the start of the buffer and the rest as it was. */
static int carded(uint8_t suit, uint8_t size, size_t length, uint8_t refusal, size_t count, const uint8_t *list)
{
    static uint8_t wanted[HB_CARDS_MAX + 100];
    memset(wanted, 0x5a, sizeof wanted);
    uint8_t *buf = exact(wanted, length);
    memcpy(wanted, list, size * count);
    HbCards given = hb_cards(suit, size, buf, length);
    int same = given.refusal == refusal && given.count == count && memcmp(buf, wanted, length) == 0;
    free(buf);
    return same;
}

/* Every list of practice cards; refusal 19 of a suit, a size, a buffer; bytes past the list, and a buffer that is too short, stay. */
void practice_cards(void)
{
    static const struct {
        uint8_t size;
        size_t count;
    } decks[] = {{2, 9}, {5, 135}, {8, 996}};
    static uint8_t list[HB_CARDS_MAX];
    for (uint8_t suit = 0; suit < 3; suit++) {
        for (size_t n = 0; n < COUNT_OF(decks); n++) {
            uint8_t size = decks[n].size;
            size_t count = decks[n].count, whole = size * count;
            CHECK_CASE(size, all_cards(suit, size, list) == count);
            CHECK_CASE(size, carded(suit, size, whole, 0, count, list));
            CHECK_CASE(size, carded(suit, size, whole + 1, 0, count, list));
            CHECK_CASE(size, carded(suit, size, HB_CARDS_MAX + 100, 0, count, list));
            CHECK_CASE(size, carded(suit, size, whole - 1, HB_REFUSAL_CARDS, 0, list));
            CHECK_CASE(size, carded(suit, size, 0, HB_REFUSAL_CARDS, 0, list));
        }
        for (int size = 0; size <= 255; size++)
            if (size != 2 && size != 5 && size != 8)
                CHECK_CASE(size, carded(suit, (uint8_t)size, HB_CARDS_MAX, HB_REFUSAL_CARDS, 0, list));
    }
    for (int suit = 3; suit <= 255; suit++)
        for (int size = 0; size <= 11; size++)
            CHECK_CASE(suit, carded((uint8_t)suit, (uint8_t)size, HB_CARDS_MAX, HB_REFUSAL_CARDS, 0, list));
    static const uint8_t pairs[18] = {18, 18, 19, 19, 20, 20, 21, 21, 22, 22, 23, 23, 24, 24, 25, 25, 26, 26};
    for (size_t length = 0; length <= 30; length++)
        CHECK_CASE(length, length < 18 ? carded(2, 2, length, HB_REFUSAL_CARDS, 0, pairs) : carded(2, 2, length, 0, 9, pairs));
}
