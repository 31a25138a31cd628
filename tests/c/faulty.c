/* The keeper's calls with a fault each: calls.c, compiled to call these, must fail for every number of
   FAULT but 0. `sh tests/c/must_fail.sh` runs it. */
#include "keeper.h"
#include "listing_text.h"

#include <fenv.h>
#include <stdio.h>
#include <stdlib.h>
#include <string.h>

__typeof__(keeper_check_table) faulty_check_table;
__typeof__(keeper_recovery_line) faulty_recovery_line;
__typeof__(keeper_line_of_set) faulty_line_of_set;
__typeof__(keeper_lines_of_sets) faulty_lines_of_sets;
__typeof__(keeper_line_under) faulty_line_under;
__typeof__(keeper_marked_line) faulty_marked_line;
__typeof__(keeper_stand_together) faulty_stand_together;
__typeof__(keeper_send) faulty_send;
__typeof__(keeper_save) faulty_save;
__typeof__(keeper_receive) faulty_receive;
__typeof__(keeper_fall_back) faulty_fall_back;
__typeof__(keeper_keep_sheet) faulty_keep_sheet;
__typeof__(keeper_listing) faulty_listing;

/* Whether this fault is the one asked for, and whether one from a first to a last is. */
static int asked_for(void)
{
    static int asked = -1;
    if (asked < 0) asked = getenv("FAULT") == NULL ? 0 : atoi(getenv("FAULT"));
    return asked;
}

static int fault(int number)
{
    return asked_for() == number;
}

static int fault_from(int first, int last)
{
    return first <= asked_for() && asked_for() <= last;
}

/* Of a table with N, M and a length that fit: the place of the receipt number of message k, and the count of its
   receiver, with which an unsaved message is received. */
static size_t receipt_place(const uint8_t *table, size_t k)
{
    return 4 + 2 * (size_t)keeper_u16_at(table, 0) + 4 * (size_t)keeper_u16_at(table, 2) + 4 * k + 2;
}

static uint16_t receiver_of(const uint8_t *table, size_t k)
{
    return keeper_u16_at(table, receipt_place(table, k) - 2);
}

static uint16_t count_of(const uint8_t *table, size_t k)
{
    return keeper_u16_at(table, 4 + 2 * (size_t)receiver_of(table, k));
}

static int is_unsaved(const uint8_t *table, size_t k)
{
    return keeper_u16_at(table, receipt_place(table, k)) == count_of(table, k);
}

/* A copy of a table that the checks 1 to 8 let through, in which the receipt numbers so far above the count of their
   receiver are lowered by a number, or wait. */
enum { WAITS = 65535 };

static const uint8_t *lowered(const uint8_t *table, size_t length, unsigned above, unsigned by)
{
    static uint8_t copy[KEEPER_LARGEST_TABLE];
    size_t k, m = keeper_u16_at(table, 2);
    memcpy(copy, table, length);
    for (k = 0; k < m; k++) {
        unsigned number = keeper_u16_at(table, receipt_place(table, k));
        if (number == count_of(table, k) + above)
            keeper_put_u16(copy, receipt_place(table, k), (uint16_t)(by == WAITS ? 0 : number - by));
    }
    return copy;
}

/* The table, or, where that is asked for and the table is accepted, a copy in which what is unsaved is lowered. */
static const uint8_t *lowered_if(int asked, const uint8_t *table, size_t length, unsigned by)
{
    if (!asked || keeper_check_table(table, length) != KEEPER_OK) return table;
    return lowered(table, length, 0, by);
}

/* Whether the table is refused by 23. */
static int out_of_order(const uint8_t *table, size_t length)
{
    return keeper_check_table(table, length) == KEEPER_CHANNEL_OUT_OF_ORDER;
}

/* Of a table that the checks 1 to 9 let through: whether two messages of one channel, the later one next to the earlier one
   there or anywhere behind it, are such: the later one has a smaller or the same send number, is received while the earlier
   one waits, or has a smaller or the same receipt number. */
enum pair { SENT_BEFORE, SENT_WITH, OVERTAKES, RECEIVED_BEFORE, RECEIVED_WITH };

static int has_pair(const uint8_t *table, enum pair pair)
{
    size_t m = keeper_u16_at(table, 2), sends = 4 + 2 * (size_t)keeper_u16_at(table, 0), k, q;
    for (k = 0; k < m; k++)
        for (q = 0; q < k; q++) {
            unsigned y = keeper_u16_at(table, sends + 4 * k + 2), y_before = keeper_u16_at(table, sends + 4 * q + 2);
            unsigned r = keeper_u16_at(table, receipt_place(table, k)), r_before = keeper_u16_at(table, receipt_place(table, q));
            if (keeper_u16_at(table, sends + 4 * k) != keeper_u16_at(table, sends + 4 * q)) continue;
            if (receiver_of(table, k) != receiver_of(table, q)) continue;
            if (pair == SENT_BEFORE && y < y_before) return 1;
            if (pair == SENT_WITH && y == y_before) return 1;
            if (pair == OVERTAKES && r != 0 && r_before == 0) return 1;
            if (pair == RECEIVED_BEFORE && r != 0 && r < r_before) return 1;
            if (pair == RECEIVED_WITH && r != 0 && r == r_before) return 1;
        }
    return 0;
}

uint32_t faulty_check_table(const uint8_t *table, size_t length)
{
    uint32_t r = keeper_check_table(table, length);
    if (fault(389) && r == KEEPER_CHANNEL_OUT_OF_ORDER) return KEEPER_OK;
    if (fault(390) && r == KEEPER_CHANNEL_OUT_OF_ORDER) return KEEPER_RECEIPT_NUMBER_TOO_HIGH;
    if (fault(391) && r == KEEPER_CHANNEL_OUT_OF_ORDER && has_pair(table, SENT_BEFORE)) return KEEPER_OK;
    if (fault(392) && r == KEEPER_CHANNEL_OUT_OF_ORDER && has_pair(table, OVERTAKES)) return KEEPER_OK;
    if (fault(393) && r == KEEPER_CHANNEL_OUT_OF_ORDER && has_pair(table, RECEIVED_BEFORE)) return KEEPER_OK;
    if (fault(394) && r == KEEPER_OK && has_pair(table, SENT_WITH)) return KEEPER_CHANNEL_OUT_OF_ORDER;
    if (fault(395) && r == KEEPER_OK && has_pair(table, RECEIVED_WITH)) return KEEPER_CHANNEL_OUT_OF_ORDER;
    if (fault(396) && r == KEEPER_RECEIPT_NUMBER_TOO_HIGH && has_pair(table, RECEIVED_BEFORE)) return KEEPER_CHANNEL_OUT_OF_ORDER;
    if (fault(164) && r == KEEPER_OK && memcmp(lowered(table, length, 0, 1), table, length) != 0) return KEEPER_RECEIPT_NUMBER_TOO_HIGH;
    if (fault(165) && r == KEEPER_RECEIPT_NUMBER_TOO_HIGH) return keeper_check_table(lowered(table, length, 1, 1), length);
    if (fault(1) && length == 0) return KEEPER_WRONG_LENGTH;
    if (fault(2) && r == KEEPER_WRONG_LENGTH) return KEEPER_OK;
    if (fault(3) && r == KEEPER_RECEIPT_NUMBER_TOO_HIGH) return KEEPER_SEND_NUMBER_TOO_HIGH;
    if (fault(4) && length == 48) ((uint8_t *)(uintptr_t)table)[47] ^= 1;
    if (fault(5) && length > 0) ((uint8_t *)(uintptr_t)table)[length] = 0;
    return r;
}

uint32_t faulty_recovery_line(const uint8_t *table, size_t length, uint8_t *answer, size_t room, size_t *written)
{
    if (fault(397) && out_of_order(table, length)) return KEEPER_OK;
    uint32_t r = keeper_recovery_line(table, length, answer, room, written);
    if (fault(6) && r == KEEPER_OK) answer[*written] = 0;
    if (fault(7) && r == KEEPER_OK) answer[-1] = 0;
    if (fault(8) && r == KEEPER_OK) memset(answer, 0, *written);
    if (fault(9) && r == KEEPER_OK) *written += 1;
    if (fault(10) && r == KEEPER_TABLE_TOO_SHORT) *written = 0;
    if (fault(11) && r == KEEPER_WRONG_LENGTH && room > 0) answer[room - 1] = 0;
    return r;
}

uint32_t faulty_line_of_set(const uint8_t *table, size_t length, uint32_t set, uint8_t *answer, size_t room, size_t *written)
{
    if (fault(398) && out_of_order(table, length)) return KEEPER_RECEIPT_NUMBER_TOO_HIGH;
    if (fault(12)) set &= 0x7FFFFFFFu;
    if (fault(13) && keeper_check_table(table, length) == KEEPER_OK && (set >> 31) != 0) return KEEPER_UNKNOWN_PROCESS_IN_SET;
    if (fault(14) && room == 0 && keeper_check_table(table, length) == KEEPER_OK) return KEEPER_ANSWER_TOO_SHORT;
    if (fault(15)) set = ~set & 3u;
    if (fault(16) && length >= 4 && (set >> table[0]) != 0) return KEEPER_UNKNOWN_PROCESS_IN_SET;
    if (fault(384) && keeper_check_table(table, length) == KEEPER_OK && table[0] == 32) feraiseexcept(FE_INVALID);
    if (fault(385) && set == 0x00010000u) set <<= 1;
    if (fault(386) && set == 0x20000000u) set = 0;
    table = lowered_if(fault(166), table, length, WAITS);
    table = lowered_if(fault(167), table, length, 1);
    return keeper_line_of_set(table, length, set, answer, room, written);
}

/* The checks of a list of sets, a scratch and an answer buffer, on an accepted table; right where no fault of them is asked
   for. */
static int is_unknown(const uint32_t *sets, size_t count, size_t n)
{
    size_t k;
    int right = !fault_from(433, 446);
    for (k = 0; k < count; k++) {
        uint32_t set = sets[k];
        if (right && n < 32 && set >> n != 0) return 1;
        if (right) continue;
        if (fault(433) && k > 0) continue;
        if (fault(434) && k + 1 < count) continue;
        if (fault(435) && k == 0 && count > 1) continue;
        if (fault(436) && k == 255) continue;
        if (fault(437) && k == 128) continue;
        if (fault(438)) set &= 0x7FFFFFFFu;
        if (fault(439)) set &= 0xFFFF;
        if (fault(440)) set &= 0xFF;
        if (fault(441)) set &= ~((uint32_t)1 << n % 32);
        if (fault(442) && set == (uint32_t)1 << (n - 1)) return 1;
        if (fault(443) && (set >> 31) != 0) return 1;
        if (fault(444) && set >> n % 32 != 0) return 1;
        if (fault(445) && n == 31 && set >> 30 != 0) return 1;
        if (fault(446) && set == 0) return 1;
        if (n < 32 && set >> n != 0) return 1;
    }
    return 0;
}

static int is_scratch_short(size_t numbers, size_t n, size_t count)
{
    if (fault(447)) return numbers <= n * n;
    if (fault(448)) return numbers + 1 < n * n;
    if (fault(449)) return numbers < n;
    if (fault(450)) return numbers < n * count;
    if (fault(451)) return numbers < 2 * n * n;
    if (fault(452)) return numbers < KEEPER_SCRATCH_NUMBERS;
    if (fault(453) && count == 0) return 0;
    if (fault(454) && numbers > KEEPER_SCRATCH_NUMBERS) return 1;
    return numbers < n * n;
}

static int is_answer_short(size_t room, size_t n, size_t count, const uint8_t *answer)
{
    if (fault(455)) return room <= 2 * n * count;
    if (fault(456)) return room + 1 < 2 * n * count;
    if (fault(457)) return room < 2 * n;
    if (fault(458) && count == 0 && room == 0) return 1;
    if (fault(459) && count == 0 && room < 2 * n) return 1;
    if (fault(460) && answer == NULL) return 1;
    if (fault(461)) return room < 64 * count;
    if (fault(462)) return room < KEEPER_LINES_ROOM;
    if (fault(463)) return room < 4 + 2 * n * count;
    return room < 2 * n * count;
}

static uint32_t faulty_sets_checks(const uint32_t *sets, size_t count, size_t n, size_t numbers, size_t room, const uint8_t *answer)
{
    int many = count > KEEPER_MOST_SETS, unknown, scratch_short, answer_short;
    if (fault(464)) many = count >= KEEPER_MOST_SETS;
    if (fault(465)) many = count >= KEEPER_MOST_SETS - 1;
    if (fault(466)) many = count > KEEPER_MOST_SETS + 1;
    if (fault(467)) many = 0;
    if (fault(468)) many = (count & 0xFFFF) > KEEPER_MOST_SETS;
    if (fault(469)) many = count > 65536;
    if (fault(470) && n < 32) many = count > 8 * n;
    if (fault(471) && count == 0) many = 1;
    if (fault(472) && sets == NULL) many = 1;
    unknown = is_unknown(sets, count, n);
    scratch_short = is_scratch_short(numbers, n, count);
    answer_short = is_answer_short(room, n, count, answer);
    if (fault(473) && unknown) return KEEPER_UNKNOWN_PROCESS_IN_SET;
    if (fault(474) && unknown && (sets[0] >> n) != 0) return KEEPER_UNKNOWN_PROCESS_IN_SET;
    if (fault(475) && scratch_short) return KEEPER_SCRATCH_TOO_SHORT;
    if (fault(476) && answer_short) return KEEPER_ANSWER_TOO_SHORT;
    if (many) return fault(477) ? KEEPER_UNKNOWN_PROCESS_IN_SET : fault(478) ? KEEPER_TABLE_FULL : KEEPER_TOO_MANY_SETS;
    if (fault(479) && scratch_short) return KEEPER_SCRATCH_TOO_SHORT;
    if (fault(480) && answer_short) return KEEPER_ANSWER_TOO_SHORT;
    if (unknown) return fault(481) ? KEEPER_TOO_MANY_SETS : fault(482) ? KEEPER_UNKNOWN_PROCESS : KEEPER_UNKNOWN_PROCESS_IN_SET;
    if (fault(483) && answer_short) return KEEPER_ANSWER_TOO_SHORT;
    if (scratch_short) return fault(484) ? KEEPER_ANSWER_TOO_SHORT : fault(485) ? KEEPER_MARKS_TOO_SHORT : KEEPER_SCRATCH_TOO_SHORT;
    if (answer_short) return fault(486) ? KEEPER_SCRATCH_TOO_SHORT : KEEPER_ANSWER_TOO_SHORT;
    return KEEPER_OK;
}

/* The line of a set from those of single holders; right where no fault of it is asked for. */
static void faulty_minimum(const uint8_t *table, const uint16_t *lines, uint32_t set, uint16_t *line)
{
    size_t n = keeper_u16_at(table, 0), p, i, last = 0, members = 0;
    int any = 0;
    for (i = 0; i < n; i++)
        line[i] = keeper_u16_at(table, 4 + 2 * i);
    if (!fault_from(487, 513)) {
        for (p = 0; p < n; p++)
            for (i = 0; (set >> p & 1) != 0 && i < n; i++)
                if (lines[n * p + i] < line[i]) line[i] = lines[n * p + i];
        return;
    }
    for (p = 0; p < n; p++)
        if ((set >> p & 1) != 0) members++, last = p;
    if (set == 0) {
        for (i = 0; i < n; i++) {
            if (fault(487)) line[i]--;
            if (fault(488)) line[i] = 0;
            if (fault(489)) line[i] = 65535;
            if (fault(490)) line[i] = lines[i];
            if (fault(491)) line[i] = (uint16_t)(line[i] & 0xFF);
        }
        return;
    }
    if (fault(492)) memset(line, 0, 2 * n);
    for (p = 0; p < n; p++) {
        if ((set >> p & 1) == 0 && !fault(493)) continue;
        if (fault(494) && (set >> p & 1) != 0) continue;
        if (fault(495) && !any && members > 1) { any = 1; continue; }
        if (fault(496) && p == last && members > 1) continue;
        if (fault(497) && p == last) continue;
        if (fault(498) && p == 31) continue;
        if (fault(499) && p == 0) continue;
        if (fault(500) && p == 16) continue;
        if (fault(501) && p == n - 1) continue;
        if (fault(502) && p > 0 && (set >> (p - 1) & 1) != 0) continue;
        for (i = 0; i < n; i++) {
            uint16_t number = lines[n * p + i];
            if (fault(503) && i == p) continue;
            if (fault(504) && i == n - 1) continue;
            if (fault(505) && i == 0) continue;
            if (fault(506) && i != p) continue;
            if (fault(507)) number = lines[n * i + p];
            if (fault(508)) number = lines[p];
            if (fault(509) && members > 1) number = (uint16_t)(number - (i == p));
            if (fault(510) ? number > line[i] : fault(511) ? (number & 0xFF) < (line[i] & 0xFF) : fault(512) ? any == 0 || number > line[i] : number < line[i])
                line[i] = number;
            if (fault(513)) line[i] = number;
        }
        any = 1;
    }
}

/* Writes the lines of sets; right where no fault of it is asked for. */
static void faulty_lines(const uint8_t *table, const uint16_t *lines, const uint32_t *sets, size_t count, uint8_t *answer)
{
    size_t n = keeper_u16_at(table, 0), k, i, stride = fault(514) ? 32 : fault(515) ? n + 1 : n, at = 0;
    uint16_t line[KEEPER_MOST_PROCESSES], least[KEEPER_MOST_PROCESSES];
    static uint8_t own[66 * KEEPER_MOST_SETS];
    memset(own, answer[0], sizeof own);
    memset(least, 0xFF, sizeof least);
    for (k = 0; k < count; k++) {
        size_t from = fault(516) ? 0 : fault(517) ? count - 1 - k : fault(518) ? count - 1 : fault(519) && k > 0 ? k - 1 : k;
        uint32_t set = sets[from];
        if (fault(520) && k > 0 && sets[k] == sets[k - 1]) continue;
        if (fault(521) && k + 1 == count) continue;
        if (fault(522) && k == 255) continue;
        if (fault(523) && k >= 128) continue;
        if (fault(524)) set &= 0xFFFF;
        if (fault(525)) set &= 0x7FFFFFFFu;
        if (fault(526)) set = ~set;
        if (fault(527) && k > 0) set |= sets[k - 1];
        if (fault(528) && n == 32 && set == 0xFFFFFFFFu) set = 0;
        faulty_minimum(table, lines, set, line);
        for (i = 0; i < n; i++) {
            size_t place = fault(529) ? 2 * (count * i + k) : 2 * (stride * at + i);
            if (fault(530)) line[i] = least[i] = line[i] < least[i] ? line[i] : least[i];
            if (fault(531)) line[i] = (uint16_t)(line[i] << 8 | line[i] >> 8);
            keeper_put_u16(own, place, line[i]);
            if (fault(532)) own[place + 1] = 0;
        }
        if (fault(533) && k % 2 == 1) memcpy(own + 2 * n * k, own + 2 * n * (k - 1), 2 * n);
        at++;
    }
    if (count > 0) memcpy(answer, own, 2 * n * count);
}

uint32_t faulty_lines_of_sets(const uint8_t *table, size_t length, const uint32_t *sets, size_t sets_length, uint16_t *scratch,
                              size_t numbers, uint8_t *answer, size_t room, size_t *written)
{
    uint8_t line[KEEPER_LARGEST_LINE];
    uint16_t lines[KEEPER_SCRATCH_NUMBERS + 1];
    uint32_t *list = (uint32_t *)(uintptr_t)sets, r = keeper_check_table(table, length);
    size_t n, p, i, size, count = sets_length;
    if (fault(534) && sets_length > KEEPER_MOST_SETS) return KEEPER_TOO_MANY_SETS;
    if (fault(535) && sets_length > 0 && sets[0] == 0xFFFFFFFFu && r != KEEPER_OK) return KEEPER_UNKNOWN_PROCESS_IN_SET;
    if (fault(536) && numbers == 0) return KEEPER_SCRATCH_TOO_SHORT;
    if (fault(537) && sets_length > 0 && room == 0) return KEEPER_ANSWER_TOO_SHORT;
    if (fault(538) && r == KEEPER_CHANNEL_OUT_OF_ORDER) return KEEPER_OK;
    if (fault(539) && r == KEEPER_CHANNEL_OUT_OF_ORDER) return KEEPER_RECEIPT_NUMBER_TOO_HIGH;
    if (fault(540) && r != KEEPER_OK && sets_length == 0) return *written = 0, KEEPER_OK;
    if (fault(541) && r != KEEPER_OK) *written = 0;
    if (fault(542) && r == KEEPER_WRONG_LENGTH && numbers > 0) scratch[0] = 0;
    if (fault(543) && r == KEEPER_WRONG_LENGTH && room > 0) answer[0] = 0;
    if (r != KEEPER_OK) return r;
    n = keeper_u16_at(table, 0);
    if (fault(544)) count &= 0xFF;
    if (fault(545)) count &= 0xFFFF;
    if (fault(546) && count > KEEPER_MOST_SETS) count = KEEPER_MOST_SETS;
    r = faulty_sets_checks(sets, count, n, numbers, room, answer);
    size = 2 * n * count;
    if (fault(547) && r == KEEPER_TOO_MANY_SETS) *written = 0;
    if (fault(548) && r == KEEPER_TOO_MANY_SETS && room > 0) answer[0] = 0;
    if (fault(549) && r == KEEPER_TOO_MANY_SETS && numbers > 0) scratch[0] = 0;
    if (fault(550) && r == KEEPER_TOO_MANY_SETS) list[256] ^= 1;
    if (fault(551) && r == KEEPER_UNKNOWN_PROCESS_IN_SET) *written = 0;
    if (fault(552) && r == KEEPER_UNKNOWN_PROCESS_IN_SET && room > 0) answer[room - 1] = 0;
    if (fault(553) && r == KEEPER_UNKNOWN_PROCESS_IN_SET && numbers > 0) scratch[numbers - 1] = 0;
    if (fault(554) && r == KEEPER_UNKNOWN_PROCESS_IN_SET) for (i = 0; i < count; i++) list[i] &= ((uint32_t)1 << n) - 1;
    if (fault(555) && r == KEEPER_SCRATCH_TOO_SHORT) *written = size;
    if (fault(556) && r == KEEPER_SCRATCH_TOO_SHORT && numbers > 0) memset(scratch, 0, 2 * numbers);
    if (fault(557) && r == KEEPER_SCRATCH_TOO_SHORT && room > 0) answer[0] = 0;
    if (fault(558) && r == KEEPER_ANSWER_TOO_SHORT) *written = size;
    if (fault(559) && r == KEEPER_ANSWER_TOO_SHORT && room > 0) memset(answer, 0, room);
    if (fault(560) && r == KEEPER_ANSWER_TOO_SHORT) scratch[n * n - 1] = 0;
    if (fault(561) && r == KEEPER_ANSWER_TOO_SHORT && room >= 2 * n) keeper_line_of_set(table, length, sets[0], answer, room, &i);
    if (r != KEEPER_OK && r != KEEPER_ANSWER_TOO_SHORT) return r;
    for (p = 0; p < n; p++) {
        keeper_line_of_set(fault(562) ? lowered_if(1, table, length, WAITS) : table, length, (uint32_t)1 << p, line, sizeof line, &i);
        for (i = 0; i < n; i++)
            lines[n * p + i] = keeper_u16_at(line, 2 * i);
    }
    /* The keep sheet leaves its lines in the scratch under 16. */
    if (r == KEEPER_ANSWER_TOO_SHORT) {
        if (fault(563)) memcpy(scratch, lines, 2 * n * n);
        return r;
    }
    if (fault(564) && room > 16384) return KEEPER_ANSWER_TOO_SHORT;
    if (numbers < n * n || room < size || count > KEEPER_MOST_SETS) {
        /* Let through by a fault. */
        *written = size;
        return KEEPER_OK;
    }
    if (!(fault(565) && count == 0) && !(fault(566) && count == 1) && !fault(567)) memcpy(scratch, lines, 2 * n * n);
    if (count == 0 && fault(568)) return KEEPER_OK;
    if (count > 0) faulty_lines(table, lines, sets, count, answer);
    *written = size;
    if (fault(569) && n > 1) memmove(scratch, scratch + n, 2 * n * (n - 1));
    if (fault(570) && n > 1) memmove(scratch + n, lines, 2 * n * (n - 1));
    if (fault(571)) for (p = 0; p < n; p++) for (i = 0; i < n; i++) scratch[n * i + p] = lines[n * p + i];
    if (fault(572) && numbers > n * n) scratch[n * n] = 0;
    if (fault(573) && numbers > n * n) scratch[numbers - 1] = 0;
    if (fault(574)) scratch[numbers] = 0;
    if (fault(575)) scratch[-1] = 0;
    if (fault(576) && numbers >= 32 * n) for (p = n; p-- > 0;) memmove(scratch + 32 * p, scratch + n * p, 2 * n);
    if (fault(577)) for (i = 0; i < n * n; i++) scratch[i] = (uint16_t)(scratch[i] << 8 | scratch[i] >> 8);
    if (fault(578) && n > 1) scratch[n * n - 1] = 0;
    if (fault(579)) scratch[0] = keeper_u16_at(table, 4);
    if (fault(580) && count > 0) for (i = 0; i < n; i++) scratch[i] = keeper_u16_at(answer, 2 * i);
    if (fault(581)) *written = n * count;
    if (fault(582)) *written = 2 * n;
    if (fault(583)) *written = count;
    if (fault(584)) *written = room;
    if (fault(585)) *written = 64 * count;
    if (fault(586) && room > size) answer[size] = 0;
    if (fault(587) && room > 0) answer[room] = 0;
    if (fault(588) && room > 0) answer[-1] = 0;
    if (fault(589) && room > size) memset(answer + size, 0, room - size);
    if (fault(590) && count > 0) list[0] ^= 1;
    if (fault(591) && count > 0) list[count - 1] = 0;
    if (fault(592) && count > 0) list[count] ^= 1;
    if (fault(593)) ((uint8_t *)(uintptr_t)table)[length - 1] ^= 1;
    if (fault(594) && count > 0) feraiseexcept(FE_INEXACT);
    if (fault(595) && n == 32) feraiseexcept(FE_INVALID);
    if (fault(596) && count > 0 && ((uintptr_t)sets & 4) != 0) answer[0] ^= 1;
    if (fault(597) && count > 0 && ((uintptr_t)scratch & 2) != 0) answer[0] ^= 1;
    if (fault(598) && count > 0 && ((uintptr_t)answer & 1) != 0) answer[size - 1] ^= 1;
    if (fault(599) && sets == NULL) return KEEPER_UNKNOWN_PROCESS_IN_SET;
    if (fault(600) && count == 256) return KEEPER_TOO_MANY_SETS;
    return KEEPER_OK;
}

uint32_t faulty_line_under(const uint8_t *table, size_t length, const uint16_t *ceilings, size_t ceilings_length,
                           uint8_t *answer, size_t room, size_t *written)
{
    if (fault(399) && out_of_order(table, length)) return KEEPER_OK;
    uint16_t counts[KEEPER_MOST_PROCESSES], other[KEEPER_MOST_PROCESSES];
    uint16_t *list = (uint16_t *)(uintptr_t)ceilings;
    size_t p, n = keeper_check_table(table, length) == KEEPER_OK ? table[0] : 0;
    int fits = ceilings_length == n;
    uint32_t r;
    for (p = 0; p < n; p++) {
        counts[p] = keeper_u16_at(table, 4 + 2 * p);
        if (fits) other[p] = ceilings[p];
        if (fault(48) && fits && ceilings[p] == counts[p]) return KEEPER_CEILING_TOO_HIGH;
        if (fault(49) && fits && ceilings[p] == counts[p] + 1) other[p] = counts[p];
        if (fault(50) && p < ceilings_length && !fits && ceilings[p] > counts[p]) return KEEPER_CEILING_TOO_HIGH;
        if (fault(51) && fits && ceilings[p] < counts[p]) other[p] = counts[p];
        if (fault(52) && fits && p == n - 1 && ceilings[p] < counts[p]) other[p] = counts[p];
        if (fault(53) && fits) other[p] &= 0xFF;
        if (fault(54) && fits && ceilings[p] + 1 < counts[p]) other[p] = (uint16_t)(counts[p] - 1);
    }
    if (fault(55) && n != 0 && room < 2 * n) return KEEPER_ANSWER_TOO_SHORT;
    if (fault(56) && n != 0 && ceilings_length == 0) return keeper_line_of_set(table, length, 0, answer, room, written);
    if (fault(57)) ceilings_length &= 0xFF;
    if (fault(58)) ceilings_length &= 0xFFFF;
    if (fault(59) && n != 0 && ceilings_length > n) ceilings_length = n;
    if (fault(60) && ceilings_length == 0) return KEEPER_WRONG_CEILING_COUNT;
    table = lowered_if(fault(168), table, length, WAITS);
    table = lowered_if(fault(169), table, length, 1);
    r = keeper_line_under(table, length, fits && n != 0 ? other : ceilings, ceilings_length, answer, room, written);
    if (fault(61) && r == KEEPER_OK) memset(answer, 0, *written);
    for (p = 0; p < n; p++)
        if (fault(62) && r == KEEPER_OK) keeper_put_u16(answer, 2 * p, ceilings[p]);
    if (fault(63) && r == KEEPER_OK) answer[*written] = 0;
    if (fault(64) && r == KEEPER_WRONG_CEILING_COUNT && room > 0) answer[room - 1] = 0;
    if (fault(65) && r == KEEPER_CEILING_TOO_HIGH && room > 0) answer[0] = 0;
    if (fault(66) && r == KEEPER_WRONG_CEILING_COUNT) *written = 0;
    if (fault(67) && r == KEEPER_CEILING_TOO_HIGH) *written = 0;
    if (fault(68) && r == KEEPER_ANSWER_TOO_SHORT) *written = 2 * n;
    if (fault(69) && r == KEEPER_OK) list[0] ^= 1;
    if (fault(70) && r == KEEPER_WRONG_CEILING_COUNT && ceilings_length == 65536) list[65535] ^= 1;
    if (fault(71) && r == KEEPER_OK) list[n] ^= 1;
    if (fault(72) && r == KEEPER_WRONG_CEILING_COUNT && ceilings == NULL) return KEEPER_OK;
    if (fault(73) && r == KEEPER_OK && ((uintptr_t)answer & 1) != 0) answer[0] ^= 1;
    return r;
}

/* The line by marking, over a byte for each checkpoint and the virtual ones; right where no fault of it is asked for. No
   table of calls.c takes 100 rounds, and where there are no messages no root is marked. */
static void faulty_marking(const uint8_t *table, const uint16_t *ceilings, uint16_t *root)
{
    static uint8_t marked[KEEPER_MOST_PROCESSES][KEEPER_MOST_CHECKPOINTS + 1];
    size_t n = keeper_u16_at(table, 0), m = keeper_u16_at(table, 2), p, k, count;
    int more, gave, rounds = 0;
    for (p = 0; p < n; p++) {
        memset(marked[p], 0, sizeof marked[p]);
        root[p] = ceilings[p];
    }
    if (m == 0) return;
    do {
        do {
            more = 0;
            for (p = 0; p < n; p++) {
                size_t c;
                count = keeper_u16_at(table, 4 + 2 * p);
                for (c = 0; c < count; c++) {
                    if (c != root[p] && (fault(90) || !marked[p][c])) continue;
                    if (fault(91) && c + 1 == count) continue;
                    if (fault(92) && c == root[p]) continue;
                    more |= !marked[p][c + 1];
                    marked[p][c + 1] = 1;
                }
            }
            for (k = 0; k < m; k++) {
                size_t send = 4 + 2 * n + 4 * k, receipt = send + 4 * m;
                size_t j = keeper_u16_at(table, send), y = keeper_u16_at(table, send + 2);
                size_t i = keeper_u16_at(table, receipt), r = keeper_u16_at(table, receipt + 2);
                if (r == 0 && !fault(93) && !fault(94)) continue;
                if (fault(170) && is_unsaved(table, k)) continue;
                if (fault(171) && is_unsaved(table, k)) r--;
                if (fault(94) && r == 0) r = keeper_u16_at(table, 4 + 2 * i);
                if (fault(95)) { size_t s = j; j = i; i = s; s = y; y = r; r = s; }
                if (fault(96)) y++;
                if (fault(97) && y > 0) y--;
                if (fault(98)) r++;
                if (fault(99) && r > 1) r--;
                if (y != root[j] && (fault(90) || fault(100) || !marked[j][y])) continue;
                if (fault(101) && y == root[j]) continue;
                if (fault(102) && i == 31) continue;
                more |= !marked[i][r];
                marked[i][r] = 1;
            }
        } while (more && !fault(103));
        for (gave = 0, p = 0; p < n; p++) {
            uint16_t before = root[p];
            if (fault(104)) marked[p][root[p]] = 1;
            if (fault(105) && marked[p][root[p]]) root[p] = 0;
            while (root[p] > 0 && marked[p][root[p]]) root[p]--;
            if (fault(106) && root[p] > 0 && root[p] < before) root[p]--;
            if (fault(108) && p == n - 1) root[p] = before;
            gave |= root[p] != before;
        }
        rounds++;
    } while (gave && rounds < 100 && !fault(110) && !(fault(111) && rounds == 2) && !(fault(112) && rounds == 32));
}

/* The sum of the counts of an accepted table. */
static size_t sum_of(const uint8_t *table)
{
    size_t p, sum = 0;
    for (p = 0; p < table[0]; p++)
        sum += keeper_u16_at(table, 4 + 2 * p);
    return sum;
}

/* How many bytes of marks are asked for, by a fault or rightly. */
static size_t faulty_marks_size(size_t sum, size_t n)
{
    if (fault(113)) return (sum + 7) / 8;
    if (fault(114)) return sum / 8;
    if (fault(115)) return (sum + n) / 8;
    if (fault(116)) return (sum + n) / 8 + 1;
    if (fault(117)) return ((sum & 0xFFFF) + n + 7) / 8;
    if (fault(118)) return (((sum + n) & 0xFFFF) + 7) / 8;
    if (fault(119)) return (sum + 2 * n + 7) / 8;
    if (fault(120)) return sum + n;
    if (fault(121)) return (32 * sum / n + 32 + 7) / 8;
    if (fault(122)) return KEEPER_MARKS_ROOM;
    return (sum + n + 7) / 8;
}

uint32_t faulty_marked_line(const uint8_t *table, size_t length, const uint16_t *ceilings, size_t ceilings_length,
                            uint8_t *marks, size_t marks_length, uint8_t *answer, size_t room, size_t *written)
{
    if (fault(400) && out_of_order(table, length)) return KEEPER_RECEIPT_NUMBER_TOO_HIGH;
    static uint8_t own[KEEPER_MARKS_ROOM], before[KEEPER_MARKS_ROOM];
    uint16_t root[KEEPER_MOST_PROCESSES], *list = (uint16_t *)(uintptr_t)ceilings;
    size_t p, n = keeper_check_table(table, length) == KEEPER_OK ? table[0] : 0, sum = n == 0 ? 0 : sum_of(table);
    size_t size = KEEPER_MARKS_SIZE(sum, n), asked = n == 0 ? 0 : faulty_marks_size(sum, n);
    int is_short = n != 0 && marks_length < size, seen = marks_length > 0 && marks[0] == 0xFF;
    uint32_t r;
    if (fault(123) && marks_length == 0) return KEEPER_MARKS_TOO_SHORT;
    if (fault(124) && n != 0 && room < 2 * n) return KEEPER_ANSWER_TOO_SHORT;
    if (fault(125) && is_short) return KEEPER_MARKS_TOO_SHORT;
    if (fault(126) && ceilings_length == n && is_short) return KEEPER_MARKS_TOO_SHORT;
    if (fault(127) && is_short && room < 2 * n) return keeper_line_under(table, length, ceilings, ceilings_length, answer, room, written);
    if (fault(128) && n != 0 && ceilings_length > n) ceilings_length = n;
    if (!is_short) memcpy(before, marks, size);
    r = keeper_marked_line(table, length, ceilings, ceilings_length, marks, marks_length, answer, room, written);
    if (r == KEEPER_MARKS_TOO_SHORT && marks_length >= asked) {
        r = keeper_marked_line(table, length, ceilings, ceilings_length, own, sizeof own, answer, room, written);
        if (r == KEEPER_OK && marks_length > 0) memset(marks, 0, marks_length);
    } else if (r == KEEPER_OK && marks_length < asked) {
        memcpy(marks, before, size);
        return KEEPER_MARKS_TOO_SHORT;
    }
    if (r == KEEPER_OK) {
        faulty_marking(table, ceilings, root);
        for (p = 0; p < n; p++)
            keeper_put_u16(answer, 2 * p, root[p]);
        if (fault(129)) marks[0] = 1;
        if (fault(130)) marks[size - 1] = before[size - 1];
        if (fault(131)) memcpy(marks, before, size);
        if (fault(132)) marks[size] = 0;
        if (fault(133)) memset(marks, 0, marks_length);
        if (fault(134)) marks[marks_length] = 0;
        if (fault(135)) marks[-1] = 0;
        if (fault(136)) for (p = sum + n; p < 8 * size; p++) marks[size - 1] |= before[size - 1] & (1u << p % 8);
        if (fault(137) && root[0] > 0) keeper_put_u16(answer, 0, (uint16_t)(root[0] - 1));
        if (fault(138) && root[n - 1] > 0) keeper_put_u16(answer, 2 * n - 2, (uint16_t)(root[n - 1] - 1));
        if (fault(139)) for (p = 0; p < n; p++) keeper_put_u16(answer, 2 * p, ceilings[p]);
        if (fault(140)) memset(answer, 0, 2 * n);
        if (fault(141)) keeper_recovery_line(table, length, answer, room, written);
        if (fault(142)) keeper_line_of_set(table, length, 0, answer, room, written);
        if (fault(143)) *written = n;
        if (fault(144)) *written = size;
        if (fault(145) && room > 2 * n) answer[2 * n] = 0;
        if (fault(146)) list[0] ^= 1;
        if (fault(147)) list[n] ^= 1;
        if (fault(148)) ((uint8_t *)(uintptr_t)table)[length - 1] ^= 1;
        if (fault(149) && seen) answer[0] ^= 1;
        if (fault(150) && ((uintptr_t)marks & 7) == 5) answer[0] ^= 1;
        if (fault(151) && room == 2 * n) return KEEPER_ANSWER_TOO_SHORT;
    }
    if (fault(152) && r == KEEPER_ANSWER_TOO_SHORT) memset(marks, 0, size);
    if (fault(153) && r == KEEPER_ANSWER_TOO_SHORT) marks[size - 1] ^= 0x80;
    if (fault(154) && r == KEEPER_ANSWER_TOO_SHORT && marks_length > size) marks[size] = 0;
    if (fault(155) && r == KEEPER_MARKS_TOO_SHORT && marks_length > 0) memset(marks, 0, marks_length);
    if (fault(156) && r == KEEPER_CEILING_TOO_HIGH && marks_length > 0) marks[0] = 0;
    if (fault(157) && r == KEEPER_WRONG_CEILING_COUNT && marks_length > 0) marks[marks_length - 1] = 0;
    if (fault(158) && r == KEEPER_WRONG_LENGTH && marks_length > 0) memset(marks, 0, marks_length);
    if (fault(159) && r == KEEPER_MARKS_TOO_SHORT) return KEEPER_SCRATCH_TOO_SHORT;
    if (fault(160) && r == KEEPER_MARKS_TOO_SHORT) *written = 2 * n;
    if (fault(161) && r == KEEPER_MARKS_TOO_SHORT && room >= 2 * n) memset(answer, 0, 2 * n);
    if (fault(162) && r == KEEPER_ANSWER_TOO_SHORT) *written = 2 * n;
    if (fault(163) && r == KEEPER_ANSWER_TOO_SHORT && room > 0) answer[room - 1] = 0;
    if (fault(107) && r == KEEPER_MARKS_TOO_SHORT && marks == NULL) return KEEPER_OK;
    if (fault(109) && r == KEEPER_CEILING_TOO_HIGH && is_short) return KEEPER_OK;
    return r;
}

/* Whether a zigzag path leads from one named checkpoint to another or to itself; right where no fault of it is asked for.
   `named` has the count of a process that is not named. */
static int faulty_path_from(const uint8_t *table, const uint16_t *named, size_t from)
{
    size_t n = keeper_u16_at(table, 0), m = keeper_u16_at(table, 2), k, l;
    uint8_t on_path[30] = { 0 };
    int more = 1;
    while (more)
        for (more = 0, k = 0; k < m; k++) {
            size_t send = 4 + 2 * n + 4 * k, sender = keeper_u16_at(table, send), sent = keeper_u16_at(table, send + 2);
            int follows = sender == from && sent >= named[from];
            if (fault(253) && sender == from) follows = sent > named[from];
            if (fault(254) && sender == from) follows = sent + 1u >= named[from];
            for (l = 0; l < m && !fault(255); l++) {
                size_t received = keeper_u16_at(table, receipt_place(table, l));
                if (!on_path[l] || receiver_of(table, l) != sender) continue;
                if (fault(256) && sent < received) continue;
                if (fault(257) && sent + 1 != received) continue;
                if (fault(258) && on_path[l] > 1) continue;
                if (sent + 1 < received && !(fault(259) && sent + 2 >= received)) continue;
                follows = 1 + on_path[l];
            }
            if (!follows || on_path[k]) continue;
            if (keeper_u16_at(table, receipt_place(table, k)) == 0 && !fault(260)) continue;
            if (fault(261) && is_unsaved(table, k)) continue;
            on_path[k] = (uint8_t)follows;
            more = 1;
        }
    for (k = 0; k < m; k++) {
        size_t to = receiver_of(table, k), received = keeper_u16_at(table, receipt_place(table, k));
        if (!on_path[k] || named[to] >= count_of(table, k)) continue;
        if (fault(262) && to == from) continue;
        if (fault(263) && to != from) continue;
        if (fault(264) && to < from) continue;
        if (fault(265) && to > from) continue;
        if (fault(266) && received == named[to]) continue;
        if (received <= named[to] || (fault(267) && received == named[to] + 1u)) return 1;
    }
    return 0;
}

/* Whether there is one. Long tables have the answer that is handed in. */
static int faulty_path(const uint8_t *table, const uint16_t *named, int path)
{
    size_t n = keeper_u16_at(table, 0), p;
    if (keeper_u16_at(table, 2) > 30) return path;
    for (p = 0; p < n; p++) {
        int is_named = named[p] < keeper_u16_at(table, 4 + 2 * p);
        if (is_named && faulty_path_from(table, named, p)) return 1;
        if (fault(268) && is_named) return 0;
    }
    return 0;
}

/* The latest line with the named checkpoints, where they stand together; right where no fault of it is asked for. Answers
   whether a named one was lowered. */
static int faulty_line_with(const uint8_t *table, const uint16_t *named, uint16_t *line)
{
    size_t n = keeper_u16_at(table, 0), m = keeper_u16_at(table, 2), p, k;
    int more, passes = 0, path = 0;
    memcpy(line, named, 2 * n);
    for (p = 0; p < n; p++)
        if (fault(269) && named[p] == keeper_u16_at(table, 4 + 2 * p)) line[p]--;
    do {
        for (more = 0, k = 0; k < m; k++) {
            size_t send = 4 + 2 * n + 4 * k, sender = keeper_u16_at(table, send), sent = keeper_u16_at(table, send + 2);
            size_t receiver = receiver_of(table, k), received = keeper_u16_at(table, receipt_place(table, k));
            if (received == 0) continue;
            if (fault(270) && is_unsaved(table, k)) continue;
            if (fault(271) && line[sender] < keeper_u16_at(table, 4 + 2 * sender)) sent++;
            if (sent < line[sender]) continue;
            if (fault(272) && sent == line[sender]) continue;
            if (received > line[receiver]) continue;
            if (fault(273) && received == line[receiver]) continue;
            line[receiver] = (uint16_t)(received - 1);
            if (fault(274)) line[receiver] = 0;
            if (fault(275) && received > 1) line[receiver]--;
            path |= named[receiver] < count_of(table, k);
            more = 1;
        }
        passes++;
    } while (more && !fault(276) && !(fault(277) && passes == 2));
    return path;
}

/* The earliest line with them, of those that the source has for its proof: for each process the first checkpoint from which
   no path leads to a named one. */
static void faulty_earliest(const uint8_t *table, const uint16_t *named, uint16_t *line)
{
    size_t n = keeper_u16_at(table, 0), m = keeper_u16_at(table, 2), p, k;
    int more = 1;
    for (p = 0; p < n; p++)
        line[p] = named[p] < keeper_u16_at(table, 4 + 2 * p) ? named[p] : 0;
    while (more)
        for (more = 0, k = 0; k < m; k++) {
            size_t send = 4 + 2 * n + 4 * k, sender = keeper_u16_at(table, send), sent = keeper_u16_at(table, send + 2);
            size_t received = keeper_u16_at(table, receipt_place(table, k));
            if (received == 0 || received > line[receiver_of(table, k)] || sent < line[sender]) continue;
            line[sender] = (uint16_t)(sent + 1);
            more = 1;
        }
}

/* Writes what is answered to names that are not refused. */
static uint32_t faulty_standing(const uint8_t *table, size_t length, const uint16_t *processes, const uint16_t *states,
                                size_t names, uint8_t *answer, size_t room, size_t *written)
{
    uint16_t named[KEEPER_MOST_PROCESSES], line[KEEPER_MOST_PROCESSES];
    size_t n = keeper_u16_at(table, 0), p, k, left = names;
    int path, lowered = 0;
    if (fault(278) && left > 0) left--;
    if (fault(279) && left > 2) left = 2;
    for (p = 0; p < n; p++)
        named[p] = keeper_u16_at(table, 4 + 2 * p);
    for (k = fault(280) && left > 1 ? 1 : 0; k < left; k++)
        if (!(fault(281) && processes[k] == 31)) named[fault(282) ? k : processes[k]] = states[k];
    path = faulty_path(table, named, faulty_line_with(table, named, line));
    for (p = 0; p < n; p++)
        lowered |= line[p] != named[p];
    if (fault(283)) path = 0;
    if (fault(284)) path = names > 0;
    if (fault(285)) path = lowered;
    if (fault(286) && names == n) path = 1;
    if (fault(287) && names == n) path = 0;
    if (fault(288) && names == 1) path = 0;
    if (fault(289) && names == 0) path = 1;
    if (fault(291) && names == 32) path = 1;
    if (path) {
        if (fault(294) && room < 2 * n) return KEEPER_ANSWER_TOO_SHORT;
        if (fault(295) && room == 0) return KEEPER_ANSWER_TOO_SHORT;
        if (fault(296) && answer == NULL) return KEEPER_ANSWER_TOO_SHORT;
        if (fault(297)) return KEEPER_NAMED_STATE_TOO_HIGH;
        if (fault(298)) return KEEPER_OK;
        *written = fault(299) ? 2 * n : fault(300) ? SIZE_MAX : 0;
        if (fault(301) && room > 0) answer[0] = 0;
        if (fault(302) && room > 0) answer[room - 1] = 0;
        if (fault(303) && room >= 2 * n) memcpy(answer, line, 2 * n);
        if (fault(304) && room > 2 * n) answer[2 * n] = 0;
        return KEEPER_OK;
    }
    if (fault(308)) faulty_earliest(table, named, line);
    if (fault(309) && names == 0) keeper_recovery_line(table, length, (uint8_t *)line, sizeof line, written);
    if (fault(310)) memset(line, 0, sizeof line);
    if (fault(311)) memcpy(line, named, sizeof line);
    if (fault(312)) for (p = 0; p < n; p++) line[p] = keeper_u16_at(table, 4 + 2 * p);
    if (fault(313)) for (p = 0; p < n; p++) if (line[p] == keeper_u16_at(table, 4 + 2 * p)) line[p]--;
    if (fault(314) && line[n - 1] > 0) line[n - 1]--;
    if (room < 2 * n) {
        if (fault(315)) return *written = 0, KEEPER_OK;
        if (fault(316)) *written = 2 * n;
        if (fault(317) && room > 0) memcpy(answer, line, room);
        if (!(fault(318) && room + 1 == 2 * n)) return KEEPER_ANSWER_TOO_SHORT;
        return *written = room, KEEPER_OK;
    }
    if (fault(319) && room == 2 * n) return KEEPER_ANSWER_TOO_SHORT;
    if (fault(320) && room > 4096) return KEEPER_ANSWER_TOO_SHORT;
    for (p = 0; p < n; p++)
        keeper_put_u16(answer, 2 * p, line[p]);
    *written = fault(321) ? n : fault(322) ? room : fault(323) ? 2 * names : 2 * n;
    if (fault(324)) answer[2 * n] = 0;
    if (fault(325)) answer[-1] = 0;
    if (fault(326) && room > 2 * n) memset(answer + 2 * n, 0, room - 2 * n);
    return KEEPER_OK;
}

/* The checks of names, each over the whole lists, on an accepted table; right where no fault of them is asked for. A fault
   that lets a name through makes it one that can be read. */
static int is_state_of(const uint8_t *table, uint16_t process, uint16_t state)
{
    return process < keeper_u16_at(table, 0) && state < keeper_u16_at(table, 4 + 2 * (size_t)process);
}

static uint32_t faulty_name_checks(const uint8_t *table, uint16_t *processes, size_t of_processes, uint16_t *states,
                                   size_t of_states)
{
    size_t n = keeper_u16_at(table, 0), k, names = of_processes < of_states ? of_processes : of_states;
    if (fault(331) && names > 0 && processes[0] >= n) return KEEPER_BAD_NAMED_PROCESS;
    if (fault(332) && names > 0 && !is_state_of(table, processes[0], states[0])) return KEEPER_NAMED_STATE_TOO_HIGH;
    if (of_processes != of_states && fault(336)) return KEEPER_WRONG_CEILING_COUNT;
    if (of_processes < of_states && !fault(333) && !fault(334)) return KEEPER_UNEQUAL_LISTS;
    if (of_processes > of_states && !fault(333) && !fault(335)) return KEEPER_UNEQUAL_LISTS;
    for (k = 0; k < names; k++) {
        int unknown, falling;
        if (fault(337) && processes[k] < n && !is_state_of(table, processes[k], states[k])) return KEEPER_NAMED_STATE_TOO_HIGH;
        if (fault(338)) processes[k] &= 0xFF;
        if (fault(339)) processes[k] &= 0x1F;
        unknown = processes[k] >= n;
        falling = k > 0 && processes[k] <= processes[k - 1];
        if (unknown && fault(340)) return KEEPER_UNKNOWN_PROCESS;
        if (fault(341) || (fault(342) && processes[k] == n) || (fault(343) && processes[k] < 32)) unknown = 0;
        if (fault(345) && k > 0) unknown = 0;
        if (fault(346) || (fault(347) && falling && processes[k] == processes[k - 1]) || (fault(349) && k > 1)) falling = 0;
        if (fault(348) && falling && processes[k] < processes[k - 1]) falling = 0;
        if (unknown || falling) return KEEPER_BAD_NAMED_PROCESS;
    }
    for (k = 0; k < names; k++) {
        int last = k + 1 == names, above;
        uint16_t count;
        if (processes[k] >= n) processes[k] = (uint16_t)(n - 1);
        count = keeper_u16_at(table, 4 + 2 * (size_t)processes[k]);
        if (fault(351)) states[k] &= 0xFF;
        if (fault(352)) states[k] &= 0xFFF;
        above = states[k] >= (fault(350) ? keeper_u16_at(table, 4 + 2 * (k % n)) : count);
        if (fault(353) && states[k] + 1u == count && count > 1) above = 1;
        if (above && fault(354)) return KEEPER_CEILING_TOO_HIGH;
        if (fault(355) || (fault(356) && states[k] == count) || (fault(357) && k > 0) || (fault(358) && !last)) above = 0;
        if (above) return KEEPER_NAMED_STATE_TOO_HIGH;
        if (states[k] > count) states[k] = count;
    }
    return KEEPER_OK;
}

uint32_t faulty_stand_together(const uint8_t *table, size_t length, const uint16_t *processes, size_t processes_length,
                               const uint16_t *states, size_t states_length, uint8_t *answer, size_t room, size_t *written)
{
    if (fault(401) && out_of_order(table, length)) return KEEPER_OK;
    static uint16_t named[65536 + 2], of_named[65536 + 2];
    uint16_t *first = (uint16_t *)(uintptr_t)processes, *second = (uint16_t *)(uintptr_t)states;
    size_t n = keeper_check_table(table, length) == KEEPER_OK ? table[0] : 0;
    size_t of_processes = processes_length, of_states = states_length;
    uint32_t r;
    if (fault(359) && processes_length != states_length) return KEEPER_UNEQUAL_LISTS;
    if (fault(360) && processes_length == 0) return KEEPER_UNEQUAL_LISTS;
    if (fault(361) && processes_length > 0 && processes[0] >= 32) return KEEPER_BAD_NAMED_PROCESS;
    if (fault(362) && states_length > 0 && states[0] > 4096) return KEEPER_NAMED_STATE_TOO_HIGH;
    if (fault(363) && room == 0) return KEEPER_ANSWER_TOO_SHORT;
    if (n == 0) {
        r = keeper_stand_together(table, length, processes, processes_length, states, states_length, answer, room, written);
        if (fault(364) && r == KEEPER_WRONG_LENGTH) *written = 0;
        if (fault(365) && r == KEEPER_RECEIPT_NUMBER_TOO_HIGH && room > 0) answer[0] = 0;
        if (fault(366) && r == KEEPER_TABLE_TOO_SHORT) return *written = 0, KEEPER_OK;
        return r;
    }
    if (fault(367)) of_processes &= 0xFFFF;
    if (fault(368)) of_states &= 0xFFFF;
    if (fault(369)) of_processes &= 0xFFFF, of_states &= 0xFFFF;
    if (fault(370)) of_processes &= 0xFF, of_states &= 0xFF;
    if (fault(371) && of_processes > n && of_states > n) of_processes = of_states = n;
    if (fault(372) && room < 2 * n && of_processes != of_states) return KEEPER_ANSWER_TOO_SHORT;
    if (of_processes > 0) memcpy(named, processes, 2 * of_processes);
    if (of_states > 0) memcpy(of_named, states, 2 * of_states);
    r = faulty_name_checks(table, named, of_processes, of_named, of_states);
    if (fault(373) && r == KEEPER_BAD_NAMED_PROCESS && room < 2 * n) return KEEPER_ANSWER_TOO_SHORT;
    if (fault(374) && r == KEEPER_NAMED_STATE_TOO_HIGH && room < 2 * n) return KEEPER_ANSWER_TOO_SHORT;
    if (fault(375) && r == KEEPER_NAMED_STATE_TOO_HIGH) return *written = 0, KEEPER_OK;
    if (fault(376) && r == KEEPER_BAD_NAMED_PROCESS) return *written = 0, KEEPER_OK;
    if (fault(377) && r == KEEPER_UNEQUAL_LISTS) *written = 0;
    if (fault(378) && r == KEEPER_BAD_NAMED_PROCESS) *written = 0;
    if (fault(379) && r == KEEPER_NAMED_STATE_TOO_HIGH) *written = 0;
    if (fault(380) && r == KEEPER_UNEQUAL_LISTS && room > 0) answer[0] = 0;
    if (fault(381) && r == KEEPER_BAD_NAMED_PROCESS && room > 0) answer[room - 1] = 0;
    if (fault(382) && r == KEEPER_NAMED_STATE_TOO_HIGH && room > 0) answer[0] = 0;
    if (fault(383) && r == KEEPER_BAD_NAMED_PROCESS && processes_length == 65536) first[65535] ^= 1;
    if (fault(344) && r == KEEPER_UNEQUAL_LISTS && states_length == 65536) second[65535] ^= 1;
    if (r != KEEPER_OK) return r;
    if (fault(290) && processes == NULL) return *written = 0, KEEPER_OK;
    if (fault(292) && ((uintptr_t)processes & 2) != 0) return *written = 0, KEEPER_OK;
    if (fault(293) && ((uintptr_t)states & 2) != 0) return *written = 0, KEEPER_OK;
    if (of_processes > of_states) of_processes = of_states;
    r = faulty_standing(table, length, named, of_named, of_processes, answer, room, written);
    if (r != KEEPER_OK || of_processes == 0) return r;
    if (fault(305) && *written == 0) first[0] ^= 1;
    if (fault(306) && *written == 0) ((uint8_t *)(uintptr_t)table)[length - 1] ^= 1;
    if (fault(307) && *written == 0) second[of_processes] ^= 1;
    if (fault(327)) first[of_processes - 1] ^= 1;
    if (fault(328)) ((uint8_t *)(uintptr_t)table)[4] ^= 1;
    if (fault(329)) second[0] ^= 1;
    if (fault(330)) first[of_processes] ^= 1;
    return r;
}

uint32_t faulty_send(const uint8_t *table, size_t length, uint16_t from, uint16_t to, uint8_t *answer, size_t room, size_t *written)
{
    if (fault(402) && out_of_order(table, length)) return KEEPER_RECEIPT_NUMBER_TOO_HIGH;
    uint32_t r;
    if (fault(17)) { uint16_t other = from; from = to; to = other; }
    if (fault(18) && from == to && keeper_check_table(table, length) == KEEPER_OK) return KEEPER_SEND_TO_ITSELF;
    if (fault(19)) from &= 0xFF;
    r = keeper_send(table, length, from, to, answer, room, written);
    if (fault(20) && r == KEEPER_TABLE_FULL && room == 0) return KEEPER_ANSWER_TOO_SHORT;
    if (fault(21) && r == KEEPER_OK && room == *written) return KEEPER_ANSWER_TOO_SHORT;
    if (fault(22) && r == KEEPER_ANSWER_TOO_SHORT && room > 0) answer[0] = 2;
    if (fault(23) && r == KEEPER_UNKNOWN_PROCESS) *written = 0;
    if (fault(172) && r == KEEPER_OK) keeper_put_u16(answer, *written - 2, keeper_u16_at(table, 4 + 2 * (size_t)to));
    return r;
}

uint32_t faulty_save(const uint8_t *table, size_t length, uint16_t process, const uint16_t *list, size_t list_length,
                     uint8_t *answer, size_t room, size_t *written)
{
    if (fault(403) && out_of_order(table, length)) return KEEPER_OK;
    size_t k, m;
    int any = 0;
    uint32_t r;
    if (fault(24)) list_length = 0;
    if (fault(47)) process &= 0xFF;
    if (fault(173)) list_length &= 0xFFFF;
    if (fault(174)) list_length &= 0xFF;
    r = keeper_save(table, length, process, list, list_length, answer, room, written);
    if (fault(409) && r == KEEPER_MESSAGE_PASSED_OVER) return KEEPER_OK;
    if (fault(410) && r == KEEPER_MESSAGE_PASSED_OVER) return KEEPER_BAD_LIST;
    if (fault(411) && r == KEEPER_MESSAGE_PASSED_OVER && room < length) return KEEPER_ANSWER_TOO_SHORT;
    if (fault(412) && r == KEEPER_MESSAGE_PASSED_OVER && keeper_u16_at(table, 4 + 2 * (size_t)process) == 4096) return KEEPER_TABLE_FULL;
    if (fault(413) && r == KEEPER_MESSAGE_PASSED_OVER && list_length > 1) return KEEPER_OK;
    if (fault(414) && r == KEEPER_MESSAGE_PASSED_OVER && list[0] == 0) return KEEPER_OK;
    if (fault(415) && r == KEEPER_MESSAGE_PASSED_OVER) *written = 0;
    if (fault(416) && r == KEEPER_MESSAGE_PASSED_OVER && room > 0) answer[room - 1] = 0;
    if (fault(417) && r == KEEPER_BAD_LIST && list_length == 2 && list[0] == 2) return KEEPER_MESSAGE_PASSED_OVER;
    if (fault(418) && r == KEEPER_OK && list_length == 1 && list[0] > 0) return KEEPER_MESSAGE_PASSED_OVER;
    if (fault(419) && r == KEEPER_OK && list_length > 1) return KEEPER_MESSAGE_PASSED_OVER;
    if (fault(420) && r == KEEPER_MESSAGE_PASSED_OVER && list[0] == 1) return KEEPER_OK;
    if (fault(25) && r == KEEPER_OK && list_length > 0) ((uint16_t *)(uintptr_t)list)[0] ^= 1;
    if (fault(26) && r == KEEPER_BAD_LIST && length == 16) return KEEPER_TABLE_FULL;
    if (fault(27) && r == KEEPER_TABLE_FULL) return KEEPER_OK;
    if (fault(28) && r == KEEPER_TABLE_TOO_SHORT) return KEEPER_WRONG_LENGTH;
    if (fault(29) && r == KEEPER_OK) memcpy(answer, table, length);
    if (fault(30) && list == NULL && r == KEEPER_OK) return KEEPER_BAD_LIST;
    if (fault(175) && r == KEEPER_BAD_LIST)
        return keeper_save(lowered(table, length, 0, WAITS), length, process, list, list_length, answer, room, written);
    if (r != KEEPER_OK) return r;
    m = keeper_u16_at(table, 2);
    for (k = 0; k < m; k++) {
        size_t place = receipt_place(table, k);
        if (!is_unsaved(table, k)) continue;
        if (fault(176) && receiver_of(table, k) != process) keeper_put_u16(answer, place, 0);
        if (receiver_of(table, k) != process) continue;
        any = 1;
        if (fault(177)) keeper_put_u16(answer, place, (uint16_t)(count_of(table, k) + 1));
        if (fault(178)) keeper_put_u16(answer, place, (uint16_t)(count_of(table, k) - 1));
        if (fault(179)) keeper_put_u16(answer, place, 0);
    }
    if (fault(180) && any && list_length == 0) memcpy(answer, table, length);
    return r;
}

/* What a receipt does to the table that it succeeded on; `answer` is what the archive made of it. */
static void faulty_receipts(const uint8_t *table, size_t length, uint16_t process, const uint16_t *list, size_t list_length,
                            uint8_t *answer)
{
    size_t i, k, m = keeper_u16_at(table, 2), place = 4 + 2 * (size_t)process;
    uint16_t count = keeper_u16_at(table, place);
    for (i = 0; i < list_length; i++) {
        size_t at = receipt_place(table, list[i]);
        if (fault(181)) keeper_put_u16(answer, at, (uint16_t)(count - 1));
        if (fault(182)) keeper_put_u16(answer, at, (uint16_t)(count + 1));
        if (fault(183) && i == 0) keeper_put_u16(answer, at, 0);
        if (fault(184) && i == list_length - 1) keeper_put_u16(answer, at, 0);
        if (fault(185) && i > 0) keeper_put_u16(answer, at, 0);
        if (fault(186)) keeper_put_u16(answer, at, keeper_u16_at(table, 4));
        if (fault(187)) keeper_put_u16(answer, at, (uint16_t)(count & 0xFFF));
    }
    for (k = 0; k < m; k++) {
        size_t at = receipt_place(table, k);
        if (receiver_of(table, k) != process) continue;
        if (fault(188) && keeper_u16_at(table, at) == 0) keeper_put_u16(answer, at, count);
        if (fault(189) && is_unsaved(table, k)) keeper_put_u16(answer, at, 0);
    }
    if (fault(190)) keeper_put_u16(answer, place, (uint16_t)(count + 1));
    if (fault(191) && list_length > 0) keeper_put_u16(answer, place, (uint16_t)(count + 1));
    if (fault(192) && list_length == 0) keeper_put_u16(answer, place, (uint16_t)(count + 1));
    if (fault(193)) memcpy(answer, table, length);
    if (fault(194)) keeper_put_u16(answer, 2, (uint16_t)(m + 1));
}

uint32_t faulty_receive(const uint8_t *table, size_t length, uint16_t process, const uint16_t *list, size_t list_length,
                        uint8_t *answer, size_t room, size_t *written)
{
    if (fault(404) && out_of_order(table, length)) return KEEPER_RECEIPT_NUMBER_TOO_HIGH;
    static uint8_t large[KEEPER_LARGEST_TABLE + 8];
    uint16_t *entries = (uint16_t *)(uintptr_t)list;
    int accepted = keeper_check_table(table, length) == KEEPER_OK;
    uint32_t r;
    if (fault(195)) list_length = 0;
    if (fault(196)) list_length &= 0xFFFF;
    if (fault(197)) list_length &= 0xFF;
    if (fault(198)) process &= 0xFF;
    if (fault(199) && process >= 32) return KEEPER_UNKNOWN_PROCESS;
    if (fault(200) && list_length > 0 && list[0] >= 4096) return KEEPER_BAD_LIST;
    if (fault(201) && room < length) return KEEPER_ANSWER_TOO_SHORT;
    if (fault(202) && accepted && room < length) return KEEPER_ANSWER_TOO_SHORT;
    if (fault(203) && accepted && process < table[0] && room < length) return KEEPER_ANSWER_TOO_SHORT;
    if (fault(204) && keeper_save(table, length, process, list, list_length, large, sizeof large, written) == KEEPER_TABLE_FULL)
        return KEEPER_TABLE_FULL;
    if (fault(205) && accepted && keeper_u16_at(table, 2) == 4096) return KEEPER_TABLE_FULL;
    if (fault(206) && accepted && process < table[0] && list_length == 0) return KEEPER_BAD_LIST;
    if (fault(207) && list == NULL) return KEEPER_BAD_LIST;
    if (fault(208) && accepted && process < table[0] && list_length == 0 && room >= length) return *written = length, KEEPER_OK;
    if (fault(209) && accepted && process < table[0] && list_length == 0 && room >= length) return *written = 0, KEEPER_OK;
    if (fault(210) && room == length + 5000) room = length - 1;
    r = keeper_receive(table, length, process, list, list_length, answer, room, written);
    if (fault(421) && r == KEEPER_MESSAGE_PASSED_OVER) return KEEPER_OK;
    if (fault(422) && r == KEEPER_MESSAGE_PASSED_OVER) return KEEPER_BAD_LIST;
    if (fault(423) && r == KEEPER_MESSAGE_PASSED_OVER && room < length) return KEEPER_ANSWER_TOO_SHORT;
    if (fault(424) && r == KEEPER_MESSAGE_PASSED_OVER && keeper_u16_at(table, 4 + 2 * (size_t)process) == 4096) return KEEPER_TABLE_FULL;
    if (fault(425) && r == KEEPER_MESSAGE_PASSED_OVER && list_length > 1) return KEEPER_OK;
    if (fault(426) && r == KEEPER_MESSAGE_PASSED_OVER && list[0] == 0) return KEEPER_OK;
    if (fault(427) && r == KEEPER_MESSAGE_PASSED_OVER) *written = 0;
    if (fault(428) && r == KEEPER_MESSAGE_PASSED_OVER && room > 0) answer[room - 1] = 0;
    if (fault(429) && r == KEEPER_BAD_LIST && list_length == 2 && list[0] == 2) return KEEPER_MESSAGE_PASSED_OVER;
    if (fault(430) && r == KEEPER_OK && list_length == 1 && list[0] > 0) return KEEPER_MESSAGE_PASSED_OVER;
    if (fault(431) && r == KEEPER_OK && list_length > 1) return KEEPER_MESSAGE_PASSED_OVER;
    if (fault(432) && r == KEEPER_MESSAGE_PASSED_OVER && keeper_u16_at(table, 2) == 4096) return KEEPER_OK;
    if (fault(211) && r == KEEPER_BAD_LIST)
        r = keeper_receive(lowered(table, length, 0, WAITS), length, process, list, list_length, answer, room, written);
    if (fault(212) && r == KEEPER_BAD_LIST) r = keeper_receive(table, length, process, list, list_length - 1, answer, room, written);
    if (fault(213) && r == KEEPER_BAD_LIST) r = keeper_receive(table, length, process, list, 0, answer, room, written);
    if (fault(214) && r == KEEPER_BAD_LIST && process + 1u < table[0])
        r = keeper_receive(table, length, (uint16_t)(process + 1), list, list_length, answer, room, written);
    if (fault(215) && r == KEEPER_UNKNOWN_PROCESS) r = keeper_receive(table, length, 0, list, list_length, answer, room, written);
    if (fault(216) && r == KEEPER_UNKNOWN_PROCESS && list_length > 0 && list[0] > 4) return KEEPER_BAD_LIST;
    if (fault(217) && r == KEEPER_UNKNOWN_PROCESS && process == table[0]) r = keeper_receive(table, length, 0, list, 0, answer, room, written);
    if (fault(218) && r == KEEPER_OK && room == length) return KEEPER_ANSWER_TOO_SHORT;
    if (fault(219) && r == KEEPER_OK && room < length + 8) return KEEPER_ANSWER_TOO_SHORT;
    if (fault(220) && r == KEEPER_ANSWER_TOO_SHORT && room + 1 == length) {
        r = keeper_receive(table, length, process, list, list_length, large, sizeof large, written);
        memcpy(answer, large, room);
    }
    if (fault(221) && r == KEEPER_ANSWER_TOO_SHORT) return *written = length, KEEPER_OK;
    if (fault(222) && r == KEEPER_ANSWER_TOO_SHORT) *written = length;
    if (fault(223) && r == KEEPER_ANSWER_TOO_SHORT && room > 0) memcpy(answer, table, room);
    if (fault(224) && r == KEEPER_BAD_LIST) *written = 0;
    if (fault(225) && r == KEEPER_BAD_LIST && room > 0) answer[room - 1] = 0;
    if (fault(226) && r == KEEPER_UNKNOWN_PROCESS) *written = 0;
    if (fault(227) && r == KEEPER_UNKNOWN_PROCESS && room > 0) answer[0] = 0;
    if (fault(228) && r == KEEPER_WRONG_LENGTH && room > 0) answer[0] = 0;
    if (fault(229) && r == KEEPER_RECEIPT_NUMBER_TOO_HIGH) *written = 0;
    if (fault(230) && r == KEEPER_RECEIPT_NUMBER_TOO_HIGH) return KEEPER_OK;
    if (r != KEEPER_OK) return r;
    faulty_receipts(table, length, process, list, list_length, answer);
    if (fault(231) && room > length) answer[length] = 0;
    if (fault(232) && room > length) answer[room - 1] = 0;
    if (fault(233)) answer[room] = 0;
    if (fault(234)) answer[-1] = 0;
    if (fault(235)) *written = length - 1;
    if (fault(236)) *written = room;
    if (fault(237) && list_length > 0) entries[0] ^= 1;
    if (fault(238) && list_length > 0) entries[list_length - 1] ^= 1;
    if (fault(239) && list != NULL) entries[list_length] ^= 1;
    if (fault(240)) ((uint8_t *)(uintptr_t)table)[length - 1] ^= 1;
    if (fault(241) && ((uintptr_t)table & 1) != 0) answer[0] ^= 1;
    if (fault(242) && list == NULL) answer[length - 1] ^= 1;
    return r;
}

/* The table after a fall back; right where no fault of it is asked for. */
static size_t faulty_rollback(const uint8_t *table, size_t length, uint8_t *answer)
{
    uint8_t line[KEEPER_LARGEST_LINE], kept[KEEPER_MOST_MESSAGES];
    size_t n = keeper_u16_at(table, 0), m = keeper_u16_at(table, 2), k, p, size, left = 0, at = 0;
    keeper_recovery_line(table, length, line, sizeof line, &size);
    for (k = 0; k < m; k++) {
        size_t sender = keeper_u16_at(table, 4 + 2 * n + 4 * k), sent = keeper_u16_at(table, 4 + 2 * n + 4 * k + 2);
        kept[k] = sent < keeper_u16_at(line, 2 * sender);
        if (fault(243) && is_unsaved(table, k)) kept[k] = 0;
        if (fault(244) && is_unsaved(table, k)) kept[k] = 1;
        left += kept[k];
    }
    size = KEEPER_TABLE_SIZE(n, left);
    keeper_put_u16(answer, 0, (uint16_t)n);
    keeper_put_u16(answer, 2, (uint16_t)left);
    for (p = 0; p < n; p++)
        keeper_put_u16(answer, 4 + 2 * p, (uint16_t)(keeper_u16_at(line, 2 * p) + 1));
    for (k = 0; k < m; k++) {
        uint16_t number = keeper_u16_at(table, receipt_place(table, k)), at_line = keeper_u16_at(line, 2 * (size_t)receiver_of(table, k));
        if (!kept[k]) continue;
        if (number > at_line && !(fault(245) && is_unsaved(table, k))) number = 0;
        if (fault(246) && is_unsaved(table, k)) number = (uint16_t)(at_line + 1);
        if (fault(247) && is_unsaved(table, k)) number = at_line;
        memcpy(answer + 4 + 2 * n + 4 * at, table + 4 + 2 * n + 4 * k, 4);
        keeper_put_u16(answer, 4 + 2 * n + 4 * left + 4 * at, receiver_of(table, k));
        keeper_put_u16(answer, 4 + 2 * n + 4 * left + 4 * at + 2, number);
        at++;
    }
    return size;
}

uint32_t faulty_fall_back(const uint8_t *table, size_t length, uint8_t *answer, size_t room, size_t *written)
{
    if (fault(405) && out_of_order(table, length)) return KEEPER_OK;
    static uint8_t own[KEEPER_LARGEST_TABLE];
    uint32_t r = keeper_fall_back(table, length, answer, room, written);
    if (r == KEEPER_OK) {
        *written = faulty_rollback(table, length, own);
        if (*written > room) return KEEPER_ANSWER_TOO_SHORT;
        memcpy(answer, own, *written);
    }
    if (fault(31) && r == KEEPER_OK && room < length) return KEEPER_ANSWER_TOO_SHORT;
    if (fault(32) && r == KEEPER_OK) memcpy(answer, table, *written);
    if (fault(33) && r == KEEPER_OK) memset(answer + *written, 0, room - *written);
    return r;
}

/* The positions on a sheet that succeeded, with the unsaved ones all there, or none of them. */
static size_t faulty_positions(const uint8_t *table, uint8_t *sheet, size_t room, size_t size)
{
    size_t kept = keeper_u16_at(sheet, 0), logged = keeper_u16_at(sheet, 2), m = keeper_u16_at(table, 2), k, from = 0, to = 0;
    static uint16_t positions[KEEPER_MOST_MESSAGES];
    if (!fault(248) && !fault(249)) return size;
    for (k = 0; k < m; k++) {
        int there = from < logged && keeper_u16_at(sheet, 4 + 4 * kept + 2 * from) == k;
        from += there != 0;
        if (is_unsaved(table, k)) there = fault(248);
        if (there) positions[to++] = (uint16_t)k;
    }
    if (KEEPER_SHEET_SIZE(kept, to) > room) return size;
    keeper_put_u16(sheet, 2, (uint16_t)to);
    for (k = 0; k < to; k++)
        keeper_put_u16(sheet, 4 + 4 * kept + 2 * k, positions[k]);
    return KEEPER_SHEET_SIZE(kept, to);
}

uint32_t faulty_keep_sheet(const uint8_t *table, size_t length, uint16_t *scratch, size_t numbers, uint8_t *answer, size_t room,
                           size_t *written)
{
    if (fault(408) && out_of_order(table, length) && numbers > 0) scratch[0] = 0;
    if (fault(406) && out_of_order(table, length)) return KEEPER_RECEIPT_NUMBER_TOO_HIGH;
    static uint16_t other[KEEPER_SCRATCH_NUMBERS];
    uint32_t r;
    if (fault(34) && numbers <= KEEPER_SCRATCH_NUMBERS) {
        r = keeper_keep_sheet(table, length, other, numbers, answer, room, written);
        if (r == KEEPER_OK) memcpy(scratch, other, 2 * numbers);
        return r;
    }
    table = lowered_if(fault(250), table, length, WAITS);
    table = lowered_if(fault(251), table, length, 1);
    r = keeper_keep_sheet(table, length, scratch, numbers, answer, room, written);
    if (r == KEEPER_OK) *written = faulty_positions(table, answer, room, *written);
    if (fault(35) && r == KEEPER_OK) scratch[numbers - 1] = 0;
    if (fault(36) && r == KEEPER_OK && numbers > 4) scratch[numbers] = 0;
    if (fault(37) && r == KEEPER_SCRATCH_TOO_SHORT && numbers > 0) scratch[0] = 0;
    if (fault(38) && r == KEEPER_SCRATCH_TOO_SHORT && room == 0) return KEEPER_ANSWER_TOO_SHORT;
    if (fault(39) && r == KEEPER_OK && numbers < KEEPER_SCRATCH_NUMBERS) return KEEPER_SCRATCH_TOO_SHORT;
    if (fault(40) && r == KEEPER_OK) answer[2] ^= 1;
    if (fault(41) && r == KEEPER_OK) answer[*written - 1] ^= 1;
    if (fault(42) && r == KEEPER_WRONG_LENGTH && numbers > 0) scratch[numbers - 1] = 0;
    if (fault(387) && r == KEEPER_OK) feraiseexcept(FE_INEXACT);
    return r;
}

/* A share by another rule; `right` where no fault of the share is asked for. */
static unsigned faulty_share(unsigned kept, unsigned total, unsigned right)
{
    unsigned below = 100 * kept / total, rest = 100 * kept % total;
    int half = 2 * rest == total;
    if (fault(74)) return below;
    if (fault(75)) return below + (rest > 0);
    if (fault(76) && half) return below + 1;
    if (fault(77) && half) return below;
    if (fault(78) && half) return below + 1 - below % 2;
    if (fault(79) && half && below >= 50) return below + 1;
    if (fault(80) && half && below >= 50) return below;
    if (fault(81) && half && below < 50) return below;
    if (fault(82) && 1000 * kept / total % 10 == 5) return below + below % 2;
    if (fault(83) && (2000 * kept + total) / (2 * total) % 10 == 5) return below + below % 2;
    if (fault(84) && rest == total / 2) return below + below % 2;
    if (fault(85) && !half && rest >= total / 2) return below + 1;
    if (fault(86)) return 100 / total * kept;
    if (fault(87) && kept == total) return 99;
    return right;
}

/* The share of a listing replaced, where there is room for it. */
static void put_faulty_share(const uint8_t *table, uint8_t *text, size_t room, size_t *written)
{
    unsigned kept = 0, total = 0, p;
    size_t i, row = 0;
    char other[32];
    for (p = 0; p < table[0]; p++)
        total += keeper_u16_at(table, 4 + 2 * p);
    for (i = 0; i + 1 < *written; i++)
        if (text[i] == '\n') {
            row = i + 1;
            kept += text[row] == 'c';
        }
    sprintf(other, "share %u\n", faulty_share(kept, total, (unsigned)atoi((const char *)text + row + 6)));
    if (row + strlen(other) <= room) {
        memcpy(text + row, other, strlen(other));
        *written = row + strlen(other);
    }
}

uint32_t faulty_listing(const uint8_t *table, size_t length, uint8_t *text, size_t room, size_t *written)
{
    if (fault(407) && out_of_order(table, length)) return KEEPER_CHANNEL_OUT_OF_ORDER;
    const uint8_t *read = lowered_if(fault(252), table, length, WAITS);
    uint32_t r = keeper_listing(read, length, text, room, written);
    if (fault(43) && r == KEEPER_OK && *written < room) text[*written] = 0;
    if (fault(44) && r == KEEPER_OK && keeper_check_table(table, length) != KEEPER_OK) return keeper_check_table(table, length);
    if (fault(45) && r == KEEPER_OK) *written -= 1;
    if (fault(46) && r == KEEPER_ANSWER_TOO_SHORT && room > 0) text[0] = 'l';
    if (fault(88) && r == KEEPER_ANSWER_TOO_SHORT) *written = 0;
    if (fault(89) && r == KEEPER_OK && room == *written) return KEEPER_ANSWER_TOO_SHORT;
    if (fault(388) && r == KEEPER_OK) feraiseexcept(FE_INEXACT);
    if (r == KEEPER_OK && keeper_check_table(table, length) == KEEPER_OK) put_faulty_share(table, text, room, written);
    return r;
}
