/*
 * What is written in the language itself. SPDX: MIT OR Apache-2.0
 */
#ifndef PRELUDE_H
#define PRELUDE_H

extern const char *const prelude[];

#endif
