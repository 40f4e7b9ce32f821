/* The header alone, as the oldest C and C++ that it serves: it needs nothing included before it, and its use compiles. */
#include "poqewan.h"

uint64_t charge_of(const uint8_t *bytes, size_t m, const uint8_t *text, size_t n);

uint64_t charge_of(const uint8_t *bytes, size_t m, const uint8_t *text, size_t n)
{
    uint8_t classes[POQEWAN_CLASSES];
    uint16_t scratch[POQEWAN_SCRATCH];
    uint32_t positions[8192];
    poqewan_identity(classes, POQEWAN_CLASSES);
    poqewan_preparation p = poqewan_prepare(bytes, m, classes, POQEWAN_CLASSES, scratch, POQEWAN_SCRATCH);
    if (p.refusal != 0)
        return 0;
    poqewan_first f = poqewan_find_first(p.pattern, text, n);
    if (f.refusal != 0 || f.found == 0)
        return poqewan_charge(f.count);
    poqewan_report r = poqewan_colussi(p.pattern, text, n, UINT64_MAX, positions, 8192);
    if (r.refusal != 0 || r.ending != POQEWAN_DONE)
        r = poqewan_kmp(p.pattern, text, n, UINT64_MAX, positions, 0);
    return poqewan_charge(r.count);
}

uint64_t charge_of_order(const poqewan_pattern *pattern, const uint8_t *order, const uint8_t *text, size_t n);

uint64_t charge_of_order(const poqewan_pattern *pattern, const uint8_t *order, const uint8_t *text, size_t n)
{
    uint32_t positions[8192];
    poqewan_report r = poqewan_ordered(*pattern, order, pattern->len, text, n, UINT64_MAX, positions, 8192);
    return r.refusal == POQEWAN_FALSE_ORDER ? 0 : poqewan_charge(r.count);
}

uint64_t charge_of_journal(const poqewan_pattern *pattern, const uint8_t *text, size_t n);

uint64_t charge_of_journal(const poqewan_pattern *pattern, const uint8_t *text, size_t n)
{
    uint32_t positions[8192], journal[8192];
    poqewan_report r = poqewan_journaled(*pattern, text, n, 8192, positions, 8192, journal, 8192);
    if (r.refusal == POQEWAN_SHORT_JOURNAL)
        return 0;
    r = poqewan_replay(*pattern, n, positions, 8192, journal, (size_t)r.count);
    return r.refusal == POQEWAN_FALSE_JOURNAL ? 0 : poqewan_charge(r.count);
}

uint64_t charge_of_lengths(const poqewan_pattern *pattern, const uint8_t *text, size_t n);

uint64_t charge_of_lengths(const poqewan_pattern *pattern, const uint8_t *text, size_t n)
{
    uint16_t lengths[8192];
    poqewan_lengths l = poqewan_prefix_lengths(*pattern, text, n, lengths, 8192);
    return l.refusal == POQEWAN_SHORT_LENGTHS ? 0 : poqewan_charge(l.count);
}

size_t used_after(const poqewan_pattern *pattern, const uint8_t *text, size_t n, size_t place, uint32_t *positions, size_t used);

size_t used_after(const poqewan_pattern *pattern, const uint8_t *text, size_t n, size_t place, uint32_t *positions, size_t used)
{
    poqewan_update u = poqewan_correct(*pattern, text, n, place, positions, 8192, used);
    return u.refusal == POQEWAN_FALSE_LIST || u.refusal == POQEWAN_SHORT_LIST ? used : u.used;
}

uint64_t charge_of_record(const poqewan_pattern *pattern, const uint8_t *archive, size_t len, uint64_t record);

uint64_t charge_of_record(const poqewan_pattern *pattern, const uint8_t *archive, size_t len, uint64_t record)
{
    uint32_t positions[8192];
    poqewan_directory d = poqewan_read_directory(archive, len);
    if (d.refusal == POQEWAN_NO_TRAILER || d.refusal == POQEWAN_FALSE_DIRECTORY || d.refusal == POQEWAN_RECORDS_APART)
        return 0;
    if (d.records > POQEWAN_MOST_RECORDS || d.start > len)
        return 0;
    poqewan_bounds b = poqewan_find_record(archive, len, record);
    if (b.refusal != 0 || b.found == 0 || b.end - b.start > POQEWAN_LONGEST_TEXT)
        return 0;
    poqewan_report r = poqewan_colussi_record(*pattern, archive, len, record, UINT64_MAX, positions, 8192);
    if (r.refusal != 0 || r.ending == POQEWAN_NO_SUCH_RECORD)
        r = poqewan_kmp_record(*pattern, archive, len, record, UINT64_MAX, positions, 0);
    return poqewan_charge(r.count);
}
