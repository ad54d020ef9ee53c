/* Work on a thread with a stack of a given size, and how much of it a call uses. */
#ifndef STACK_H
#define STACK_H

#include <stddef.h>

/* The stack that every call but the translation must do with. */
enum { SMALL_STACK = 256 * 1024 };

/* Does the work on a thread with a stack of so many bytes, which end at an unreadable page. */
void on_stack(size_t bytes, void (*work)(void));

/* The bytes of stack that a call uses, measured on such a thread. The call is made twice. */
size_t stack_used(size_t bytes, void (*call)(void));

#endif
