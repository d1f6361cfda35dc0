/* The header by itself, as C11 and as C++11: compiled without a warning, linked and run. */
#include "rokemaipu.h"

int main(void) {
    static rokemaipu_table t;
    const uint8_t session[2] = {ROKEMAIPU_COMMUNICATION_PROTOCOL_CCS_ISO_15118_2013_V2, ROKEMAIPU_PLUG_AND_PINS_CCS_DC_EXTENDED};
    int64_t raws[ROKEMAIPU_SIGNALS];
    if (ROKEMAIPU_VERSION < 500 || rokemaipu_layout() != ROKEMAIPU_LAYOUT) return 1;
    if (rokemaipu_set_up(&t, 0, 4, 5000, 1000, 500, 500, ROKEMAIPU_MEASURING, ROKEMAIPU_NEWER)) return 2;
    if (rokemaipu_frame(&t, 4, 0, 0x6b001, true, session, 2)) return 3;
    if (rokemaipu_tick(&t, 4, 501) != ROKEMAIPU_F1_POWER_MODULES_SILENT) return 4;
    if (rokemaipu_refusal(rokemaipu_tick(&t, 5, 501)) != ROKEMAIPU_R1_CHANNEL_FREE) return 5;
    if (rokemaipu_read(0x6b001, true, session, 2, raws, ROKEMAIPU_SIGNALS) != ROKEMAIPU_NEW_CHARGE_SESSION) return 6;
    return raws[ROKEMAIPU_PLUG_AND_PINS] == ROKEMAIPU_PLUG_AND_PINS_CCS_DC_EXTENDED ? 0 : 7;
}
