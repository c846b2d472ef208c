// SPDX-License-Identifier: MIT OR Apache-2.0
// A start of a program that fails now and then: loaded before the C library, by tests/ending_checks.py. Of each SHORT_EACH calls of
// posix_spawn one fails with the error SHORT_OF; the first SHORT_BUT calls do not.
#define _GNU_SOURCE
#include <dlfcn.h>
#include <spawn.h>
#include <stdatomic.h>
#include <stdlib.h>

static atomic_int calls;

static int number(const char *name)
{
    const char *text = getenv(name);
    return text ? atoi(text) : 0;
}

int posix_spawn(pid_t *pid, const char *path, const posix_spawn_file_actions_t *actions,
                const posix_spawnattr_t *attributes, char *const arguments[], char *const environment[])
{
    int (*start)(pid_t *, const char *, const posix_spawn_file_actions_t *, const posix_spawnattr_t *, char *const[],
                 char *const[]) = dlsym(RTLD_NEXT, "posix_spawn");
    int call = atomic_fetch_add(&calls, 1) + 1;
    int each = number("SHORT_EACH");
    if (call > number("SHORT_BUT") && each && call % each == 0)
        return number("SHORT_OF");
    return start(pid, path, actions, attributes, arguments, environment);
}
