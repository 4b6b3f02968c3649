/* The libraries that a program of this folder compares, each with names of its own. */
#ifndef OPENED_H
#define OPENED_H

#include <dlfcn.h>
#include <stdio.h>
#include <stdlib.h>

/* The shared library of this name; without it the program ends. */
static void *opened(const char *name)
{
    void *library = dlopen(name, RTLD_NOW | RTLD_LOCAL | RTLD_DEEPBIND);
    if (!library) {
        fprintf(stderr, "%s\n", dlerror());
        exit(1);
    }
    return library;
}

#endif
