/* What a program that links libtamburelvi.a, built with the feature `hook`, has to define. It is called where a caller has broken the rules of
 * tamburelvi.h in a way that the code comes upon, as a header whose counts are past the tables; then the receiver's state is lost. It may not return:
 * let a watchdog reset the node, or reset it. No call of a caller that keeps the rules comes here. */
#ifndef TAMBURELVI_PANIC_H
#define TAMBURELVI_PANIC_H

#ifdef __cplusplus
extern "C" {
#endif

#if defined(__GNUC__)
__attribute__((noreturn))
#endif
void tamburelvi_panicked(void);

#ifdef __cplusplus
}
#endif
#endif
