/*
**  kelubashi_selfcheck.h: a look at the processor and the library before the first orbit, for C and C++.
**
**  The library's figures are right only on a processor that rounds to nearest and keeps subnormal
**  numbers. A host can lose both without a word: by fesetround, or by being linked with -ffast-math.
**  The call is no part of the library: compile kelubashi_selfcheck.c with the program; its cases are in kelubashi_selfcheck_cases.h beside it.
*/
#ifndef KELUBASHI_SELFCHECK_H
#define KELUBASHI_SELFCHECK_H

#ifdef __cplusplus
extern "C" {
#endif

/*
**  What is wrong with the processor or the library, in words.
**
**  Call it once at the start, and in the thread that will call the library: how a processor rounds is
**  each thread's own. It changes nothing but a line of text and some bytes of its own, so that one
**  thread at a time may call it. It tries the processor, then all twelve calls of the library.
**
**  Returned: a null pointer where all is well, or else one line, without a line end, that says what is
**  wrong and what to do. The line stands until the next call. Make no call of the library then.
*/
const char *kelubashi_selfcheck(void);

#ifdef __cplusplus
}
#endif

#endif
