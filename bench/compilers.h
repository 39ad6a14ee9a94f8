/* The C side of a benchmark is compiled once by each compiler and linked under a name of its own: COMPILED(f) is f_by_gcc in
   one object and f_by_clang in the other. The faster is the one that counts. */
#ifndef COMPILERS_H
#define COMPILERS_H

#define JOINED(name, by) name##_by_##by
#define NAMED(name, by) JOINED(name, by)
#define COMPILED(name) NAMED(name, BY)

/* A table's row for each compiler, from a macro of its name. */
#ifdef WITH_CLANG
#define EACH_COMPILER(row) row(gcc) row(clang)
#else
#define EACH_COMPILER(row) row(gcc)
#endif
#endif
