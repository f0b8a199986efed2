/*
 * The flag rule and the temperature code of the drive's health, on plain numbers.
 * Link libhealth_rules.a, which examples/c/run builds of the crate health_rules_c and writes to target/staticlib/.
 * Both functions take every argument, touch no memory and always return.
 */
#ifndef HEALTH_RULES_H
#define HEALTH_RULES_H

#include <stdint.h>

#ifdef __cplusplus
extern "C" {
#endif

/*
 * The changed flags that a report gains, against the health held before.
 *
 *   old_status              the Controller Status word held before; bits 5:0 count, the others are ignored
 *   old_temperature         the composite temperature held before, in kelvins
 *   old_percentage_used     the percentage used held before
 *   old_available_spare     the available spare held before
 *   old_critical_warning    the critical warning held before; all eight bits are compared
 *   status                  the reported Controller Status word: bit 0 RDY, 1 CFS, 3:2 SHST, 4 NSSRO, 5 CECO,
 *                           and the status events 6 NAC, 7 FA, 8 TCIDA
 *   temperature             the reported composite temperature in kelvins, 0 for no reading
 *   percentage_used         the reported percentage used
 *   available_spare         the reported available spare
 *   critical_warning        the reported critical warning
 *
 * Returns FFFFh where the report is malformed: a bit of status bits 15:9 or of critical_warning bits 7:6 is set.
 * Otherwise the word of the flags gained: 0 RDY, 1 CFS and 5 CECO where the same status bit differs; 2 SHST where status
 * bits 3:2 differ; 4 NSSRO where status bit 4 goes from 0 to 1; 6 NAC, 7 FA and 13 TCIDA where that event is reported;
 * 8 CSTS where a status bit of 5:0 differs or an event is reported; 9 CTEMP, 10 PDLU, 11 SPARE and 12 CWARN where the
 * temperature, percentage used, available spare or critical warning differs. Bits 3, 14 and 15 are never set.
 */
uint16_t changed_flags_gained(uint16_t old_status, uint16_t old_temperature, uint8_t old_percentage_used, uint8_t old_available_spare,
                              uint8_t old_critical_warning, uint16_t status, uint16_t temperature, uint8_t percentage_used,
                              uint8_t available_spare, uint8_t critical_warning);

/*
 * The temperature code of a reading.
 *
 *   kelvins    the reading in kelvins, 0 for none
 *
 * Returns 80h without a reading. Otherwise kelvins - 273 in degrees Celsius: 0 to 126 as itself, 127 and above 7Fh,
 * -59 to -1 as a two's complement byte (C5h to FFh), -60 and below C4h.
 */
uint8_t composite_temperature_code(uint16_t kelvins);

#ifdef __cplusplus
}
#endif

#endif
