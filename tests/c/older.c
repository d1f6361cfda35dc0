/* 02, Req 11: the pages of the older controllers, document 001, from C: each of the eighteen messages read and written back byte for byte, a signal changed,
 * and identifiers, kinds and bits that are not theirs. Prints a line for each part and 'ok', or says what was wrong and where, and exits 1. */
#include "trips.h"

enum { FIRST = ROKEMAIPU_OLDER_POWER_MODULES_STATUS, OLDER = ROKEMAIPU_OLDER_MCS_EXTRA_INFORMATION + 1 - FIRST };

static void there_and_back(void) {
    const uint32_t uncovered[2] = {ROKEMAIPU_OLDER_SEQUENCE_CONTROL, ROKEMAIPU_OLDER_ADM_CS_SPCC_INPUTS};
    trips(FIRST, OLDER, rokemaipu_read_older, rokemaipu_write_older, rokemaipu_read, rokemaipu_write, uncovered);
    bit_by_bit(ROKEMAIPU_OLDER_SEQUENCE_CONTROL, rokemaipu_read_older, SEQUENCE_CONTROL_COVERED);
    bit_by_bit(ROKEMAIPU_OLDER_ADM_CS_SPCC_INPUTS, rokemaipu_read_older, SPCC_INPUTS_COVERED);
    puts("older: eighteen messages there and back; 4, 15 and 6, for each bit that no signal covers");
}

static void others(void) {
    int64_t raws[ROKEMAIPU_SIGNALS] = {0};
    uint8_t status[8] = {0xa0, 0x0f, 0x83, 0xff, 0x41, 0, 1, 0x64}, control[3] = {0}, safety[8] = {0x82, 0x15, 0, 0, 0, 0, 0, 0}, lent[8];
    IS(rokemaipu_read_older(0x60010, true, status, 8, raws, ROKEMAIPU_SIGNALS), ROKEMAIPU_OLDER_POWER_MODULES_STATUS); /* E1's bytes */
    IS(raws[ROKEMAIPU_OLDER_POWER_MODULES_STATUS_PRESENT_VOLTAGE] == 4000 && raws[ROKEMAIPU_OLDER_POWER_MODULES_STATUS_PRESENT_CURRENT] == -125, true);
    IS(raws[ROKEMAIPU_OLDER_POWER_MODULES_STATUS_POWER_MODULES_TEMPERATURE] == 65 && raws[ROKEMAIPU_OLDER_POWER_MODULES_STATUS_INSULATION_RESISTANCE] == 100, true);
    IS(raws[ROKEMAIPU_OLDER_POWER_MODULES_STATUS_SYSTEM_ENABLE], ROKEMAIPU_SYSTEM_ENABLE_ALLOWED);
    IS(rokemaipu_read_older(0x63000, true, status, 8, raws, ROKEMAIPU_SIGNALS), R(3));
    IS(rokemaipu_read_older(0x60010, false, status, 8, raws, ROKEMAIPU_SIGNALS), R(3)); /* the exact form counts */
    IS(rokemaipu_read_older(6, false, safety, 8, raws, ROKEMAIPU_SIGNALS), ROKEMAIPU_CHARGE_CONTROL_1); /* the safety controller's are of either */
    IS(rokemaipu_write_older(ROKEMAIPU_CHARGE_CONTROL_1, raws, ROKEMAIPU_SIGNALS, lent, 8), 8);
    IS(memcmp(lent, safety, 8), 0);
    for (uint32_t kind = 0; kind < ROKEMAIPU_KINDS + 2; kind++)
        if (kind >= ROKEMAIPU_KINDS || !is_older(kind)) IS(rokemaipu_write_older(kind, raws, ROKEMAIPU_SIGNALS, lent, 8), R(7));
    IS(rokemaipu_read_older(0x60012, true, control, 3, raws, ROKEMAIPU_SIGNALS - 1), R(8));
    IS(rokemaipu_read_older(0x60012, true, control, 3, raws, ROKEMAIPU_SIGNALS), ROKEMAIPU_OLDER_SEQUENCE_CONTROL);
    IS(rokemaipu_change_older(0x63000, true, status, 8, 16, -1), R(3));
    IS(rokemaipu_change_older(0x60012, true, control, 3, 1, 1), 0);
    IS(control[0] == 2 && !control[1] && !control[2], true);
    IS(rokemaipu_change_older(0x60012, true, control, 3, 2, 1), R(13));
    puts("older: identifiers and kinds of the newer pages, the safety controller's frames, a change");
}

int main(void) {
    there_and_back();
    others();
    puts(bad ? "BAD" : "ok");
    return bad;
}
