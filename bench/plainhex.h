/* Images as Intel HEX in plain C, written from document 02 alone: every input answered, as cartvesper.h says. */
#ifndef PLAINHEX_H
#define PLAINHEX_H
#include "cartvesper.h"

uint32_t plain_hex_export_call(cartvesper_core core, const uint8_t *memory, size_t size, uint8_t *out, size_t room);
cartvesper_core_answer plain_hex_import_call(cartvesper_core core, uint8_t *memory, size_t size, const uint8_t *text,
                                             size_t length);
#endif
