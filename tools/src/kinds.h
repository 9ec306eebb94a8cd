/* The mnemonic of each kind of instruction, 1 to 88. */
#ifndef KINDS_H
#define KINDS_H

#include <stdint.h>

enum { KINDS = 88 };

static const char *const mnemonics[KINDS + 1] = {
    NULL,
    "illegal", "l.j", "l.jal", "l.bnf", "l.bf", "l.nop", "l.movhi", "l.sys", "l.trap", "l.msync",
    "l.psync", "l.csync", "l.rfe", "l.jr", "l.jalr", "l.lwa", "l.lwz", "l.lws", "l.lbz", "l.lbs",
    "l.lhz", "l.lhs", "l.addi", "l.addic", "l.andi", "l.ori", "l.xori", "l.mfspr", "l.slli", "l.srli",
    "l.srai", "l.rori", "l.sfeqi", "l.sfnei", "l.sfgtui", "l.sfgeui", "l.sfltui", "l.sfleui", "l.sfgtsi", "l.sfgesi",
    "l.sfltsi", "l.sflesi", "l.mtspr", "l.swa", "l.sw", "l.sb", "l.sh", "l.add", "l.addc", "l.sub",
    "l.and", "l.or", "l.xor", "l.sll", "l.srl", "l.sra", "l.ror", "l.exths", "l.extbs", "l.exthz",
    "l.extbz", "l.extws", "l.extwz", "l.cmov", "l.ff1", "l.fl1", "l.sfeq", "l.sfne", "l.sfgtu", "l.sfgeu",
    "l.sfltu", "l.sfleu", "l.sfgts", "l.sfges", "l.sflts", "l.sfles", "p.cinvalidate", "p.cwriteback", "p.cflush", "l.mul",
    "l.muli", "l.mulu", "l.div", "l.divu", "l.maci", "l.mac", "l.msb", "l.macrc",
};

/* An entry's kind is in its bits 63-56. */
static inline const char *mnemonic(uint64_t entry)
{
    return mnemonics[entry >> 56];
}

#endif
