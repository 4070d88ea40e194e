/* For run.sh: over the right Score, one that gives seat 0 a hundred points more, and over the right Reading one that counts a han more of yaku 2.
 * The tool has to say that the two scorers differ. */
#include "herbassolh.h"

HbScored right_score(const uint8_t *record, size_t record_len, uint8_t dealer, uint8_t wind);
HbReading right_reading(const uint8_t *record, size_t record_len, uint8_t dealer, uint8_t wind, uint32_t n);

HbScored hb_score(const uint8_t *record, size_t record_len, uint8_t dealer, uint8_t wind)
{
    HbScored scored = right_score(record, record_len, dealer, wind);
    scored.changes[0] += 100;
    return scored;
}

HbReading hb_reading(const uint8_t *record, size_t record_len, uint8_t dealer, uint8_t wind, uint32_t n)
{
    HbReading reading = right_reading(record, record_len, dealer, wind, n);
    reading.han[HB_YAKU_TANYAO] += reading.yaku[HB_YAKU_TANYAO];
    return reading;
}
