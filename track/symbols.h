/*
 * What dymelor-cc puts before each file of C++ that it compiles: the string of the GNU C++ library is compiled with the model, where its stores
 * are told, and not taken from the library.
 */
#if defined __cplusplus && __has_include(<bits/c++config.h>)
#pragma GCC system_header
#include <bits/c++config.h>
#undef _GLIBCXX_EXTERN_TEMPLATE
#define _GLIBCXX_EXTERN_TEMPLATE -1
#endif
